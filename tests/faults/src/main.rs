//! Plays a story of backups with the program aspenbox, makes every writing call of it go wrong,
//! and cuts the power; nothing that was kept may be lost.
//!
//!   faults PROGRAM SHIM FOLDER check|long [BROKEN]
//!
//! FOLDER is an empty folder to work in, best in memory. BROKEN has programs with a mistake each,
//! which have to be caught.

mod bench;
mod broken;
mod calls;
mod change;
mod cuts;
mod cutting;
mod damage;
mod digest;
mod disk;
mod fault;
mod first;
mod heal;
mod judge;
mod level;
mod older;
mod parts;
mod played;
mod power;
mod program;
mod random;
mod report;
mod sealed;
mod seen;
mod soak;
mod story;
mod sweep;
mod total;
mod tree;
mod upgrade;

use std::env;
use std::path::{Path, PathBuf};
use std::process::ExitCode;

use level::Level;
use parts::{Outcome, Part, Stage};
use program::Program;
use story::Story;
use total::Total;

fn main() -> ExitCode {
    let arguments: Vec<String> = env::args().skip(1).collect();
    let (level, broken) = match &arguments[..] {
        [_, _, _, level] => (level.as_str(), None),
        [_, _, _, level, broken] => (level.as_str(), Some(Path::new(broken))),
        _ => return usage(),
    };
    let level = match level {
        "check" => Level::CHECK,
        "long" => Level::LONG,
        _ => return usage(),
    };
    let program = Program {
        aspenbox: PathBuf::from(&arguments[0]),
        shim: PathBuf::from(&arguments[1]),
    };
    let folder = PathBuf::from(&arguments[2]);
    let mut total = Total::default();
    match Stage::new(program, folder, level, Story::fixed()) {
        Ok(stage) => run(&stage, level, broken, &mut total),
        Err(why) => total.add(Outcome::failed("the story", why)),
    }
    total.report()
}

fn usage() -> ExitCode {
    eprintln!("usage: faults PROGRAM SHIM FOLDER check|long [BROKEN]");
    ExitCode::from(2)
}

fn run(stage: &Stage, level: Level, broken: Option<&Path>, total: &mut Total) {
    for part in parts::ALL {
        total.add(stage.run(part));
    }
    for seed in 1..=level.stories {
        println!("story by chance {seed}:");
        match stage.with(None, Story::random(seed)) {
            Ok(other) => {
                total.add(other.run(Part::Sweep));
                total.add(other.run(Part::Power));
            }
            Err(why) => total.add(Outcome::failed("the story", why)),
        }
    }
    if let Some(folder) = broken {
        total.add(broken::all_caught(stage, folder));
    }
}
