//! The parts of the test, each shared out to as many workers as there are processors.

use std::num::NonZero;
use std::path::PathBuf;
use std::sync::atomic::{AtomicUsize, Ordering};
use std::sync::Mutex;
use std::thread;

use crate::bench::{Bench, Reading};
use crate::cutting;
use crate::damage;
use crate::first;
use crate::heal;
use crate::level::Level;
use crate::played::{before_retirements, learn, play, Scene};
use crate::power;
use crate::program::Program;
use crate::report::Report;
use crate::seen;
use crate::soak;
use crate::story::Story;
use crate::sweep;
use crate::upgrade;

#[derive(Clone, Copy, PartialEq, Eq)]
pub enum Part {
    Seen,
    Sweep,
    Power,
    Heal,
    First,
    Upgrade,
    Damage,
    Soak,
}

pub const ALL: [Part; 8] = [
    Part::Seen,
    Part::Sweep,
    Part::Power,
    Part::Heal,
    Part::First,
    Part::Upgrade,
    Part::Damage,
    Part::Soak,
];

impl Part {
    pub fn named(name: &str) -> Option<Part> {
        match name {
            "seen" => Some(Part::Seen),
            "sweep" => Some(Part::Sweep),
            "power" => Some(Part::Power),
            "heal" => Some(Part::Heal),
            "first" => Some(Part::First),
            "upgrade" => Some(Part::Upgrade),
            "damage" => Some(Part::Damage),
            "soak" => Some(Part::Soak),
            _ => None,
        }
    }
}

/// What a broken program has to be caught by.
pub struct Hunt {
    pub part: Part,
    /// A text in the complaint.
    pub says: String,
    /// Only what has this text in its name is tried.
    pub among: String,
}

/// What a part came to: how many passed, what the others complain about, and a line for people.
#[derive(Default)]
pub struct Outcome {
    pub passed: usize,
    pub complaints: Vec<String>,
    pub words: String,
    /// Faults, and states of a disk after a power cut, that were tried.
    pub faults: usize,
    pub states: usize,
}

impl Outcome {
    /// Of something that couldn't be tried.
    pub fn failed(words: &str, why: String) -> Self {
        Outcome {
            complaints: vec![why],
            words: words.into(),
            ..Outcome::default()
        }
    }

    /// Faults and power cuts of the same commands together.
    fn and(self, cuts: Outcome, words: String) -> Self {
        Outcome {
            passed: self.passed + cuts.passed,
            complaints: [self.complaints, cuts.complaints].concat(),
            words,
            faults: self.faults,
            states: cuts.states,
        }
    }
}

/// A program and a story as it plays it.
pub struct Stage {
    program: Program,
    story: Story,
    scenes: Vec<Scene>,
    folder: PathBuf,
    level: Level,
}

impl Stage {
    pub fn new(
        program: Program,
        folder: PathBuf,
        level: Level,
        story: Story,
    ) -> Result<Self, String> {
        let first = folder.join("first");
        let scenes = play(&Bench::new(&program, &story, first, Reading::One))?;
        Ok(Stage {
            program,
            story,
            scenes,
            folder,
            level,
        })
    }

    /// The same with another program, or with another story.
    pub fn with(&self, aspenbox: Option<PathBuf>, story: Story) -> Result<Self, String> {
        let program = Program {
            aspenbox: aspenbox.unwrap_or(self.program.aspenbox.clone()),
            shim: self.program.shim.clone(),
        };
        Stage::new(program, self.folder.clone(), self.level, story)
    }

    pub fn run(&self, part: Part) -> Outcome {
        self.search(part, None)
    }

    /// Runs the part up to the complaint that is hunted.
    pub fn hunt(&self, hunt: &Hunt) -> Vec<String> {
        self.search(hunt.part, Some(hunt)).complaints
    }

    fn search(&self, part: Part, hunt: Option<&Hunt>) -> Outcome {
        match part {
            Part::Seen => self.seen(hunt),
            Part::Sweep => self.sweep(hunt),
            Part::Power => self.power(hunt),
            Part::Heal => self
                .heal(hunt)
                .unwrap_or_else(|why| Outcome::failed("healing", why)),
            Part::First => self.first(hunt),
            Part::Upgrade => self
                .upgrade(hunt)
                .unwrap_or_else(|why| Outcome::failed("upgrades", why)),
            Part::Damage => self.damage(hunt),
            Part::Soak => self.soak(hunt),
        }
    }

    /// Tries every item and counts those that pass.
    fn share<I: Sync>(
        &self,
        what: &str,
        hunt: Option<&Hunt>,
        items: &[I],
        label: impl Fn(&I) -> String + Sync,
        work: impl Fn(&mut Bench, &I) -> Result<(), String> + Sync,
    ) -> Outcome {
        let passed = AtomicUsize::new(0);
        let wanted = |item: &&I| hunt.is_none_or(|hunt| label(item).contains(&hunt.among));
        let items: Vec<&I> = items.iter().filter(wanted).collect();
        let report = Report::new(what, items.len(), hunt.map(|hunt| hunt.says.as_str()));
        let play = |worker: usize| {
            let folder = self.folder.join(format!("worker{worker}"));
            let reading = self.level.reading();
            let mut bench = Bench::new(&self.program, &self.story, folder, reading);
            learn(&mut bench, &self.scenes);
            while let Some(next) = report.next() {
                match work(&mut bench, items[next]) {
                    Ok(()) => {
                        passed.fetch_add(1, Ordering::Relaxed);
                    }
                    Err(why) => report.complain(label(items[next]), why),
                }
            }
        };
        thread::scope(|scope| {
            for worker in 0..thread::available_parallelism().map_or(1, NonZero::get) {
                let play = &play;
                scope.spawn(move || play(worker));
            }
        });
        Outcome {
            passed: passed.into_inner(),
            complaints: report.finish(),
            ..Outcome::default()
        }
    }

    /// The same for what is cut off by the power, with what was tried of that.
    fn share_cuts<I: Sync>(
        &self,
        what: &str,
        hunt: Option<&Hunt>,
        items: &[I],
        label: impl Fn(&I) -> String + Sync,
        work: impl Fn(&mut Bench, &I) -> Result<cutting::Counts, String> + Sync,
    ) -> (Outcome, cutting::Counts) {
        let total = Mutex::new(cutting::Counts::default());
        let outcome = self.share(what, hunt, items, label, |bench, item| {
            let counts = work(bench, item)?;
            total.lock().expect("no worker panics").add(counts);
            Ok(())
        });
        let total = total.into_inner().expect("no worker panics");
        let outcome = Outcome {
            states: total.cuts,
            ..outcome
        };
        (outcome, total)
    }

    fn seen(&self, hunt: Option<&Hunt>) -> Outcome {
        let mut outcome = Outcome {
            words: "calls: not run as the system sees them (no strace)".into(),
            ..Outcome::default()
        };
        if seen::has_strace() {
            let label = |scene: &Scene| scene.command.to_string();
            outcome = self.share(
                "what the system sees",
                hunt,
                &self.scenes,
                label,
                |bench, scene| seen::check_calls(bench, scene),
            );
            outcome.words = format!(
                "calls: the shim sees all by which {} commands write",
                outcome.passed
            );
        }
        match seen::check_imports(&self.program) {
            Ok(()) => outcome.passed += 1,
            Err(why) => outcome.complaints.push(why),
        }
        outcome
    }

    fn sweep(&self, hunt: Option<&Hunt>) -> Outcome {
        let cases = sweep::cases(&self.scenes, self.level.all);
        let label = |case: &sweep::Case| sweep::label(&self.scenes, case);
        let outcome = self.share("faults", hunt, &cases, label, |bench, case| {
            sweep::try_case(bench, &self.scenes, case)
        });
        let words = format!(
            "faults: {} in {} commands, {} recovered",
            cases.len(),
            self.scenes.len(),
            outcome.passed
        );
        Outcome {
            words,
            faults: cases.len(),
            ..outcome
        }
    }

    fn power(&self, hunt: Option<&Hunt>) -> Outcome {
        let chains = power::chains(&self.scenes, self.level.before_cuts);
        let (outcome, total) = self.share_cuts(
            "commands with power cuts",
            hunt,
            &chains,
            |chain| power::label(&self.scenes, chain),
            |bench, chain| power::try_chain(bench, &self.scenes, chain, self.level.bounds),
        );
        let words = format!(
            "power cuts: {} states of the disk, {} of them opened by aspenbox; {} of {} sequences of commands recovered; \
             after {} calls not all ways were tried",
            total.cuts,
            total.opened,
            outcome.passed,
            chains.len(),
            total.partial
        );
        Outcome { words, ..outcome }
    }

    fn heal(&self, hunt: Option<&Hunt>) -> Result<Outcome, String> {
        let first = self.folder.join("first");
        let bench = Bench::new(&self.program, &self.story, first, Reading::One);
        let repairs = heal::repairs(&bench, &self.scenes)?;
        let tried: Vec<_> = repairs.into_iter().step_by(self.level.repairs).collect();
        let cases = heal::faults(&tried);
        let faults = Outcome {
            faults: cases.len(),
            ..self.share(
                "repairs with faults",
                hunt,
                &cases,
                heal::label,
                heal::try_fault,
            )
        };
        let (cuts, _) = self.share_cuts(
            "repairs with power cuts",
            hunt,
            &heal::cut_off(&tried, self.level.before_cuts),
            heal::label,
            |bench, case| heal::try_cuts(bench, case, self.level.bounds),
        );
        let words = format!(
            "rotted blocks: {} faults and {} states after power cuts in {} commands that heal",
            faults.faults,
            cuts.states,
            tried.len()
        );
        Ok(faults.and(cuts, words))
    }

    fn first(&self, hunt: Option<&Hunt>) -> Outcome {
        let cases = first::cases(&self.scenes);
        let label = |case: &first::Case| first::label(&self.scenes, case);
        let outcome = self.share("first stores", hunt, &cases, label, |bench, case| {
            first::try_case(bench, &self.scenes, case)
        });
        let words = format!(
            "stores of the first version: {} commands, {} sealed or left alone",
            cases.len(),
            outcome.passed
        );
        let faults = cases.iter().filter(|case| case.fault.is_some()).count();
        Outcome {
            words,
            faults,
            ..outcome
        }
    }

    fn upgrade(&self, hunt: Option<&Hunt>) -> Result<Outcome, String> {
        let first = self.folder.join("first");
        let bench = Bench::new(&self.program, &self.story, first, Reading::One);
        let upgrades = upgrade::upgrades(&bench, &self.scenes, self.level.all)?;
        let cases = upgrade::faults(&upgrades);
        let faults = Outcome {
            faults: cases.len(),
            ..self.share(
                "upgrades with faults",
                hunt,
                &cases,
                upgrade::label,
                upgrade::try_fault,
            )
        };
        let (cuts, _) = self.share_cuts(
            "upgrades with power cuts",
            hunt,
            &upgrade::cut_off(&upgrades, self.level.before_cuts),
            upgrade::label,
            |bench, case| upgrade::try_cuts(bench, case, self.level.bounds),
        );
        let words = format!(
            "stores of older layouts: {} faults and {} states after power cuts in {} upgrades",
            faults.faults,
            cuts.states,
            upgrades.len()
        );
        Ok(faults.and(cuts, words))
    }

    fn damage(&self, hunt: Option<&Hunt>) -> Outcome {
        let last = |scenes: &[Scene]| scenes.last().expect("a story has commands").after.clone();
        let unretired = last(before_retirements(&self.scenes));
        let cases = damage::cases(&last(&self.scenes), &unretired, self.level.all);
        let outcome = self.share(
            "damaged stores",
            hunt,
            &cases,
            damage::label,
            damage::try_case,
        );
        let words = format!(
            "damaged stores: {} shown, {} named and left alone",
            cases.len(),
            outcome.passed
        );
        Outcome { words, ..outcome }
    }

    fn soak(&self, hunt: Option<&Hunt>) -> Outcome {
        let seeds: Vec<u64> = (1..=self.level.soaks).collect();
        let total = Mutex::new(soak::Counts::default());
        let label = |seed: &u64| format!("story by chance {seed}");
        let outcome = self.share("stories by chance", hunt, &seeds, label, |bench, &seed| {
            let counts = soak::try_seed(bench.program, bench.folder.clone(), seed)?;
            total.lock().expect("no worker panics").add(counts);
            Ok(())
        });
        let total = total.into_inner().expect("no worker panics");
        let words = format!(
            "stories by chance: {} of {} recovered, with {} commands and {} power cuts",
            outcome.passed,
            seeds.len(),
            total.commands,
            total.cuts
        );
        Outcome {
            words,
            states: total.cuts,
            ..outcome
        }
    }
}
