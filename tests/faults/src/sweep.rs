//! Every writing call of every command goes wrong in every way, or is the last one of its process;
//! after each the store is whole and goes on.

use crate::bench::Bench;
use crate::fault::{Fault, How};
use crate::played::Scene;
use crate::program::{status, Ended};
use crate::story::{Command, Standing, YES};

/// A fault in the command of this number.
pub struct Case {
    pub at: usize,
    pub fault: Fault,
    /// The call's name.
    pub call: String,
    /// Whether there is no stream to say so on. Nobody may write it into a file of the store.
    pub unheard: bool,
}

/// As a shell closes what a command says something on.
const UNHEARD: &str = ">&- 2>&-";

/// Where `all` isn't wanted, a process isn't killed before a call if it is after the one before,
/// and failures that nobody hears are those of backups.
pub fn cases(scenes: &[Scene], all: bool) -> Vec<Case> {
    let mut cases = Vec::new();
    for (at, scene) in scenes.iter().enumerate() {
        for logged in scene.calls.iter().filter(|logged| logged.number > 0) {
            let wanted = |how: &How| all || *how != How::Before || logged.number == 1;
            let heard = logged.ways().into_iter().filter(wanted);
            let backs_up = matches!(scene.command, Command::Backup { .. });
            let unheard = (all || backs_up).then_some((How::Failed, true));
            for (how, unheard) in heard.map(|how| (how, false)).chain(unheard) {
                cases.push(Case {
                    at,
                    fault: Fault {
                        at: logged.number,
                        how,
                    },
                    call: logged.name.clone(),
                    unheard,
                });
            }
        }
    }
    cases
}

pub fn label(scenes: &[Scene], case: &Case) -> String {
    let command = &scenes[case.at].command;
    let unheard = if case.unheard { ", unheard" } else { "" };
    format!("{command}, {} ({}){unheard}", case.fault, case.call)
}

pub fn try_case(bench: &mut Bench, scenes: &[Scene], case: &Case) -> Result<(), String> {
    let scene = &scenes[case.at];
    let story = bench.judge.story();
    bench.store(&scene.tree)?;
    if matches!(scene.command, Command::Retire { .. }) {
        needs_a_yes(bench, scene)?;
    }
    let ended = if case.unheard {
        bench.bring(&scene.command)?;
        bench.ask_without(UNHEARD, &scene.command.words().join(" "), Some(case.fault))?
    } else {
        bench.run(&scene.command, Some(case.fault))?
    };
    if !case.unheard || ended.status != Some(status::FILES) {
        ended_as_planned(&ended, case.fault.how)?;
    }
    let tree = bench.load()?;
    let standing = bench.judge.stands(&tree)?;
    let (before, after) = (story.standing(case.at), story.standing(case.at + 1));
    if standing != before && standing != after {
        return Err(format!("{standing}, and neither {before} nor {after}"));
    }
    if ended.status == Some(status::DONE) && standing != after {
        return Err("the command says that it is done, and it isn't".into());
    }
    if !case.fault.how.may_leave_files() {
        bench.nothing_left()?;
    }
    if standing == after {
        again(bench, &scene.command, standing)?;
    }
    bench.goes_on(standing, case.at + 1)?;
    if let Command::Backup { volume, .. } = scene.command {
        let upto = (case.at + 1).min(story.0.len() - 1);
        bench.next_backup(upto, volume)?;
    }
    // What a cut left, the commands since have removed.
    bench.nothing_left()
}

/// Nobody can be asked, so nothing is written before the command line agrees to it.
fn needs_a_yes(bench: &Bench, scene: &Scene) -> Result<(), String> {
    let words = scene.command.words();
    let others: Vec<_> = words.into_iter().filter(|word| word != YES).collect();
    let ended = bench.ask(&others.join(" "))?;
    if ended.status != Some(status::USAGE) || bench.load()? != scene.tree {
        return Err(format!("without {YES} it ends with {}", ended.words()));
    }
    Ok(())
}

/// The process was killed if the fault does that, went on if it is harmless, and else ended well
/// or with a message about files.
pub fn ended_as_planned(ended: &Ended, how: How) -> Result<(), String> {
    let fine = match ended.status {
        None => how.kills() && ended.killed(),
        Some(status::DONE) => !how.kills(),
        Some(status::FILES) => {
            !how.kills() && !how.is_harmless() && ended.errors.starts_with("aspenbox: ")
        }
        Some(_) => false,
    };
    if fine {
        Ok(())
    } else {
        Err(format!("it ends with {}", ended.words()))
    }
}

/// A command that was taken is given again: it does nothing, or is refused and says why.
fn again(bench: &mut Bench, command: &Command, standing: Standing) -> Result<(), String> {
    let ended = bench.run(command, None)?;
    let fine = match command {
        Command::Format => {
            ended.status == Some(status::USAGE) && ended.errors.contains("has a book already")
        }
        Command::Enrol { .. } | Command::Retire { .. } => refused(&ended, 5),
        Command::Backup { .. } => refused(&ended, 7),
        Command::Collect { .. } | Command::Restore { .. } => ended.status == Some(status::DONE),
    };
    if !fine {
        return Err(format!("given again, it ends with {}", ended.words()));
    }
    let tree = bench.load()?;
    if bench.judge.stands(&tree)? != standing {
        return Err("given again, it did something".into());
    }
    Ok(())
}

fn refused(ended: &Ended, number: u16) -> bool {
    let text = format!("refused {number}:");
    ended.status == Some(status::REFUSED) && ended.errors.contains(&text)
}
