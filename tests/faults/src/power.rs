//! The power fails. A kill leaves what programs see; a power cut leaves what is synced, and of the
//! rest anything. It is cut after every writing call: of a command, of the same one after a fault,
//! and of the next one, which may write pool blocks that the last one freed.

use std::collections::hash_map::DefaultHasher;
use std::collections::HashSet;
use std::hash::{Hash, Hasher};

use crate::bench::Bench;
use crate::calls::Logged;
use crate::cutting::{cut_along, Bounds, Counts, Cutting};
use crate::disk::Disk;
use crate::fault::{Fault, How};
use crate::played::{bring_image, Scene};
use crate::program::{status, Ended};
use crate::story::{Command, Standing};
use crate::tree::Tree;

/// The command of this number runs into a fault and the next one follows: once the first has been
/// run again, and once, if it had its effect, at once.
pub struct Chain {
    pub at: usize,
    pub fault: Option<Fault>,
}

pub fn chains(scenes: &[Scene], ways: &[How]) -> Vec<Chain> {
    let mut chains = Vec::new();
    for (at, scene) in scenes.iter().enumerate() {
        chains.push(Chain { at, fault: None });
        for logged in scene.calls.iter().filter(|logged| logged.number > 0) {
            for &how in ways {
                chains.push(Chain {
                    at,
                    fault: Some(Fault {
                        at: logged.number,
                        how,
                    }),
                });
            }
        }
    }
    chains
}

pub fn label(scenes: &[Scene], chain: &Chain) -> String {
    let command = &scenes[chain.at].command;
    match chain.fault {
        None => format!("{command}, power cut"),
        Some(fault) => format!("{command}, {fault}, then a power cut"),
    }
}

/// One process of a chain.
struct Process {
    at: usize,
    calls: Vec<Logged>,
    /// What it left for programs to see, and how far that is.
    seen: Tree,
    reached: Standing,
    /// How far the store is bound to be while it runs, and once it has ended.
    during: Standing,
    after: Standing,
}

/// What programs see goes through the processes; what a power cut leaves is worked out beside it.
pub fn try_chain(
    bench: &mut Bench,
    scenes: &[Scene],
    chain: &Chain,
    bounds: Bounds,
) -> Result<Counts, String> {
    let mut cutter = Cutter {
        bench,
        cutting: Cutting::new(bounds, chain.at),
        different: HashSet::new(),
    };
    let first = cutter.sequence(scenes, chain, Again::Always)?;
    // The next command may also meet a book that isn't there for good yet.
    let taken = cutter.bench.judge.story().standing(chain.at + 1);
    if chain.fault.is_some() && first == taken {
        cutter.sequence(scenes, chain, Again::IfMissing)?;
    }
    cutter.open_chosen(chain.at + 1)
}

/// When a command is run again after a fault.
#[derive(Clone, Copy, PartialEq, Eq)]
enum Again {
    Always,
    /// Not if it had its effect.
    IfMissing,
}

fn run(
    bench: &mut Bench,
    at: usize,
    fault: Option<Fault>,
    bound: Standing,
) -> Result<Process, String> {
    let story = bench.judge.story();
    let command = &story.0[at];
    let ended = bench.run(command, fault)?;
    let seen = bench.load()?;
    let done = ended.status == Some(status::DONE);
    if done {
        bench.judge.learn(&seen, story.standing(at + 1).store);
    }
    let reached = bench.judge.stands(&seen)?;
    if fault.is_none() && reached != story.standing(at + 1) {
        return Err(format!("the {command} ends with {}", ended.words()));
    }
    Ok(Process {
        at,
        after: promised(command, &ended, bound, reached),
        calls: ended.calls,
        seen,
        reached,
        during: bound,
    })
}

/// What is said to be done is there for good. So is what a refusal goes by. A restore doesn't say
/// that the store is, nor any other command that the restored file is.
pub fn promised(command: &Command, ended: &Ended, bound: Standing, reached: Standing) -> Standing {
    match ended.status {
        Some(status::DONE) if !command.changes_store() => Standing {
            store: bound.store,
            ..reached
        },
        Some(status::DONE | status::REFUSED) => Standing {
            out: bound.out,
            ..reached
        },
        _ => bound,
    }
}

struct Cutter<'b, 'a> {
    bench: &'b mut Bench<'a>,
    cutting: Cutting<(Tree, Standing)>,
    /// Trees seen in this chain, of which each is drawn once.
    different: HashSet<u64>,
}

impl Cutter<'_, '_> {
    /// Runs the commands, and cuts the power at each call; how far the first one came.
    fn sequence(
        &mut self,
        scenes: &[Scene],
        chain: &Chain,
        again: Again,
    ) -> Result<Standing, String> {
        let (at, story) = (chain.at, self.bench.judge.story());
        self.bench.store(&scenes[at].tree)?;
        let first = run(self.bench, at, chain.fault, story.standing(at))?;
        let reached = first.reached;
        let mut processes = vec![first];
        let repeats = again == Again::Always || reached != story.standing(at + 1);
        let repeated = (chain.fault.is_some() && repeats).then_some(at);
        let next = (at + 1 < scenes.len()).then_some(at + 1);
        for at in [repeated, next].into_iter().flatten() {
            let bound = processes.last().expect("one was run").after;
            processes.push(run(self.bench, at, None, bound)?);
        }
        self.follow(scenes[at].disk.clone(), scenes, &processes)?;
        Ok(reached)
    }

    fn follow(
        &mut self,
        mut disk: Disk,
        scenes: &[Scene],
        processes: &[Process],
    ) -> Result<(), String> {
        for process in processes {
            let command = &scenes[process.at].command;
            bring_image(&mut disk, command);
            cut_along(&mut disk, &process.calls, &process.seen, |disk, _| {
                self.cut(disk, process.during)
            })
            .map_err(|why| format!("in the {command}: {why}"))?;
            self.cut(&disk, process.after)
                .map_err(|why| format!("after the {command}: {why}"))?;
        }
        Ok(())
    }

    fn cut(&mut self, disk: &Disk, bound: Standing) -> Result<(), String> {
        self.cutting.cut(disk, |cutting, tree| {
            let standing = self.bench.judge.stands(&tree)?;
            if !standing.reaches(bound) {
                return Err(format!("{standing}, and {bound} was promised"));
            }
            if self.different.insert(hash_of(&tree)) {
                let room = match standing.store {
                    0 => cutting.bounds.formatted,
                    _ => cutting.bounds.opened,
                };
                cutting.draw((tree, standing), self.different.len(), room);
            }
            Ok(())
        })
    }

    /// The program opens what the power cuts left, and goes on with the story.
    fn open_chosen(self, upto: usize) -> Result<Counts, String> {
        let bench = self.bench;
        self.cutting.open_chosen(|(tree, standing)| {
            bench.store(&tree)?;
            bench
                .goes_on(standing, upto)
                .map_err(|why| format!("after a power cut that left {standing}: {why}"))
        })
    }
}

fn hash_of(tree: &Tree) -> u64 {
    let mut hasher = DefaultHasher::new();
    tree.hash(&mut hasher);
    hasher.finish()
}
