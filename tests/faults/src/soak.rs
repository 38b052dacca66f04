//! Stories by chance with faults and power cuts by chance, one after the other: also while a store
//! recovers from the last one.

use std::path::PathBuf;

use reference::prng::Prng;

use crate::bench::{Bench, Reading};
use crate::disk::Disk;
use crate::fault::{Fault, How};
use crate::played::follow;
use crate::power::promised;
use crate::program::{status, Ended, Program};
use crate::story::{history_of, Standing, Story, OUT, STORE};
use crate::tree::Tree;

/// Faults are drawn among so many calls, some of which a command doesn't reach.
const CALLS: u16 = 40;
const WAYS: [How; 9] = [
    How::Failed,
    How::NoSpace,
    How::Interrupted,
    How::Short,
    How::Before,
    How::After,
    How::Torn,
    How::Full,
    How::Dead,
];

#[derive(Clone, Copy, Default)]
pub struct Counts {
    pub commands: usize,
    pub cuts: usize,
}

impl Counts {
    pub fn add(&mut self, other: Counts) {
        self.commands += other.commands;
        self.cuts += other.cuts;
    }
}

struct Soak<'a> {
    bench: Bench<'a>,
    prng: Prng,
    disk: Disk,
    /// How far the store is bound to be, and how far it is.
    bound: Standing,
    standing: Standing,
    counts: Counts,
}

pub fn try_seed(program: &Program, folder: PathBuf, seed: u64) -> Result<Counts, String> {
    let story = Story::random(seed);
    let start = story.standing(0);
    let mut soak = Soak {
        bench: Bench::new(program, &story, folder, Reading::One),
        prng: Prng::seeded(seed),
        disk: Disk::with(&Tree::default()),
        bound: start,
        standing: start,
        counts: Counts::default(),
    };
    soak.bench.store(&Tree::default())?;
    while story.next(soak.standing) < story.0.len() {
        soak.step()?;
        if soak.prng.once_in(3) {
            soak.cut()?;
        }
    }
    let last = story.0.len() - 1;
    soak.bench.opens(soak.standing)?;
    for volume in 0..2 {
        soak.bench.next_backup(last, volume)?;
    }
    let newest = history_of(story.0.iter()).backups(0) + 1;
    soak.bench
        .ask(&format!("restore {STORE} 0 {newest} {OUT} --force"))?;
    soak.bench.nothing_left()?;
    Ok(soak.counts)
}

impl Soak<'_> {
    /// Runs the next command, half of the time with a fault.
    fn step(&mut self) -> Result<(), String> {
        let story = self.bench.judge.story();
        let at = story.next(self.standing);
        let command = &story.0[at];
        let fault = self.prng.once_in(2).then(|| Fault {
            at: self.prng.between(1, CALLS).into(),
            how: self.prng.pick(&WAYS),
        });
        let ended = self.bench.run(command, fault)?;
        self.judge(at, &ended, fault).map_err(|why| match fault {
            None => format!("the {command}: {why}"),
            Some(fault) => format!("the {command}, {fault}: {why}"),
        })?;
        follow(&mut self.disk, command, &ended.calls);
        self.counts.commands += 1;
        Ok(())
    }

    /// How far the store is after a command.
    fn judge(&mut self, at: usize, ended: &Ended, fault: Option<Fault>) -> Result<(), String> {
        if !may_end(ended, fault) {
            return Err(format!("it ends with {}", ended.words()));
        }
        let (story, tree) = (self.bench.judge.story(), self.bench.load()?);
        let mut goal = story.standing(at + 1);
        // A power cut may have undone a command and left the file that was restored after it.
        goal.out = goal.out.max(self.standing.out);
        self.standing = self.bench.judge.finds(&tree, self.standing, goal)?;
        self.bound = promised(&story.0[at], ended, self.bound, self.standing);
        if ended.status == Some(status::DONE) && !story.is_there(self.standing, at) {
            return Err("it says that it is done, and it isn't".into());
        }
        Ok(())
    }

    /// The power fails, and what is left by chance is all that there is.
    fn cut(&mut self) -> Result<(), String> {
        let ways: Vec<usize> = self
            .disk
            .choices()
            .into_iter()
            .map(|ways| self.prng.index(ways))
            .collect();
        let tree = self.disk.after_cut(&ways);
        let left = self.bench.judge.finds(&tree, self.bound, self.standing);
        self.standing = left.map_err(|why| format!("after a power cut: {why}"))?;
        self.bench.store(&tree)?;
        self.disk = Disk::with(&tree);
        self.counts.cuts += 1;
        Ok(())
    }
}

/// Well, or as the fault has it, if the command came to that call. The call may be one that is
/// never interrupted, and then the program takes it for an error.
fn may_end(ended: &Ended, fault: Option<Fault>) -> bool {
    match (ended.status, fault) {
        (Some(status::DONE), _) => true,
        (Some(status::FILES), Some(fault)) => !fault.how.kills(),
        (None, Some(fault)) => fault.how.kills() && ended.killed(),
        _ => false,
    }
}
