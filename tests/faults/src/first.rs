//! Stores of the first version: a book alone, and a lock without a digest. They are taken as they
//! are, and the next command that writes seals the book, or leaves it as it was.

use crate::bench::Bench;
use crate::fault::Fault;
use crate::judge::{BOOK, LOCK};
use crate::played::Scene;
use crate::program::status;
use crate::sealed::{self, Length};
use crate::story::{Command, Standing, STORE};
use crate::sweep;
use crate::tree::Tree;

/// The command of this number is given to such a store.
pub struct Case {
    at: usize,
    pub fault: Option<Fault>,
}

/// Every command that writes, and the last backup with every fault.
pub fn cases(scenes: &[Scene]) -> Vec<Case> {
    let writes = |at: &usize| at > &0 && scenes[*at].command.changes_store();
    let backs_up = |scene: &Scene| matches!(scene.command, Command::Backup { .. });
    let mut cases: Vec<Case> = (0..scenes.len())
        .filter(writes)
        .map(|at| Case { at, fault: None })
        .collect();
    let last = scenes.iter().rposition(backs_up).expect("a backup");
    let counted = scenes[last].calls.iter().filter(|logged| logged.number > 0);
    cases.extend(counted.flat_map(|logged| {
        logged.ways().into_iter().map(move |how| Case {
            at: last,
            fault: Some(Fault {
                at: logged.number,
                how,
            }),
        })
    }));
    cases
}

/// The store as the first version had it.
pub fn made_first(whole: &Tree) -> Tree {
    let file = |name| whole.file(name).expect("a whole store has this file");
    let lines = file(LOCK).split_inclusive(|&byte| byte == b'\n');
    let mut tree = whole.clone();
    tree.put(BOOK, sealed::open(file(BOOK)).book.to_vec());
    tree.put(LOCK, lines.take(3).flatten().copied().collect());
    tree
}

pub fn label(scenes: &[Scene], case: &Case) -> String {
    let command = &scenes[case.at].command;
    match case.fault {
        None => format!("first store, {command}"),
        Some(fault) => format!("first store, {command}, {fault}"),
    }
}

pub fn try_case(bench: &mut Bench, scenes: &[Scene], case: &Case) -> Result<(), String> {
    let scene = &scenes[case.at];
    let story = bench.judge.story();
    let (before, after) = (story.standing(case.at), story.standing(case.at + 1));
    bench.store(&made_first(&scene.tree))?;
    let ended = bench.run(&scene.command, case.fault)?;
    match case.fault {
        Some(fault) => sweep::ended_as_planned(&ended, fault.how)?,
        None if ended.status != Some(status::DONE) => {
            return Err(format!("it ends with {}", ended.words()))
        }
        None => {}
    }
    let standing = stands(bench, scene)?;
    if standing != before && standing != after {
        return Err(format!("{standing}, and neither {before} nor {after}"));
    }
    if ended.status == Some(status::DONE) && standing != after {
        return Err("the command says that it is done, and it isn't".into());
    }
    if standing == before {
        bench.run_well(&scene.command)?;
        if stands(bench, scene)? != after {
            return Err("given again, it did nothing".into());
        }
        bench.nothing_left()?;
    }
    reads(bench, scene, after)
}

/// How far the store is: as before without a seal, or as after with one.
fn stands(bench: &mut Bench, scene: &Scene) -> Result<Standing, String> {
    let tree = bench.load()?;
    let (old, new) = (parts_of(&scene.tree), parts_of(&scene.after));
    let found = parts_of(&tree);
    if tree.file(LOCK) != made_first(&scene.tree).file(LOCK) {
        return Err("the lock was changed".into());
    }
    match &found.seal {
        None if found.book == old.book => return bench.judge.stands(&scene.tree),
        None => return Err("the book is neither the old one nor the new one".into()),
        Some(_) if found.lengths != own_lengths(scene) => {
            return Err(format!("lengths are noted as {:?}", found.lengths));
        }
        Some(_) => {}
    }
    // With the lengths that the first version didn't note, it is the store of the story.
    let id = found.seal.as_ref().expect("a sealed book").id;
    let mut later = tree.clone();
    later.put(BOOK, sealed::make(found.book, &new.lengths, id));
    later.put(LOCK, scene.tree.file(LOCK).unwrap_or_default().to_vec());
    if !found.seal.as_ref().is_some_and(|seal| seal.fits) {
        return Err("the book doesn't fit its digest".into());
    }
    bench.judge.stands(&later)
}

fn parts_of(tree: &Tree) -> sealed::Parts<'_> {
    sealed::open(tree.file(BOOK).unwrap_or_default())
}

/// The length that the command itself notes.
fn own_lengths(scene: &Scene) -> Vec<Length> {
    let old = parts_of(&scene.tree).lengths;
    let mut lengths = parts_of(&scene.after).lengths;
    lengths.retain(|length| !old.contains(length));
    lengths
}

/// What the command backed up restores to its image, and the others up to the last block that was
/// sent.
fn reads(bench: &mut Bench, scene: &Scene, after: Standing) -> Result<(), String> {
    let audit = bench.ask(&format!("audit {STORE}"))?;
    if audit.status != Some(status::DONE) {
        return Err(format!("audit ends with {}", audit.words()));
    }
    let own = own_lengths(scene);
    for (volume, number, image) in bench.judge.kept(after.store) {
        let noted = own.iter().any(|l| (l.volume, l.number) == (volume, number));
        if noted {
            bench.restores(volume, number, image)?;
        } else {
            let blocks = bench.judge.blocks(after.store, volume, number);
            bench.restores(volume, number, &blocks)?;
        }
    }
    Ok(())
}
