//! Stores of older layouts, which the command upgrade brings to today's. Whatever goes wrong, the
//! book is the old one or the new one, bit for bit; the old one is there until the new one is so for
//! good; and the same command, given again, ends well.

use crate::bench::Bench;
use crate::calls::Logged;
use crate::cutting::{cut_along, Bounds, Counts, Cutting};
use crate::disk::Disk;
use crate::fault::{Fault, How};
use crate::first::made_first;
use crate::judge::{BOOK, LOCK, POOL};
use crate::older::{ends_one, store_in, LAYOUTS};
use crate::played::{before_retirements, Scene};
use crate::program::{status, Ended};
use crate::sealed;
use crate::story::{Standing, STORE};
use crate::sweep;
use crate::tree::Tree;

/// Where a new file is written.
const WRITTEN: &str = "box/book.new";

/// The command, and as it has to be given where backups end by it.
const UNFORCED: &str = "upgrade box";
const LINE: &str = "upgrade box --force";

/// A store of an older layout, and what upgrade makes of it.
pub struct Upgrade {
    what: String,
    /// Where the old book is kept.
    kept: String,
    old: Tree,
    new: Tree,
    standing: Standing,
    /// Whether the lengths of images are noted, which the first stores didn't do.
    lengths: bool,
    /// The writing calls when nothing goes wrong.
    calls: Vec<Logged>,
}

/// Which of the two books a store has.
#[derive(Clone, Copy, Debug, PartialEq, Eq)]
enum Book {
    Old,
    New,
}

/// The last store of the story that older layouts can have, in each of these, and in layout 1 also as
/// the first version had it, without a seal; where `all` are wanted, every store up to that one.
pub fn upgrades(bench: &Bench, scenes: &[Scene], all: bool) -> Result<Vec<Upgrade>, String> {
    let scenes = before_retirements(scenes);
    let mut upgrades = Vec::new();
    for (at, scene) in scenes.iter().enumerate() {
        if !all && at + 1 < scenes.len() {
            continue;
        }
        let standing = bench.judge.story().standing(at + 1);
        let after = &scene.after;
        let first = made_first(&store_in(1, after));
        let resealed = without_lengths(after, &first);
        let sealed = LAYOUTS.map(|layout| (layout, store_in(layout, after), after.clone(), true));
        for (layout, old, new, lengths) in sealed.into_iter().chain([(1, first, resealed, false)]) {
            let kind = if lengths { "store" } else { "first store" };
            let what = format!("upgrade of the {kind} of layout {layout} after the");
            upgrades.push(Upgrade {
                what: format!("{what} {}", scene.command),
                kept: format!("box/book.{layout}"),
                calls: calls_of(bench, &old, &new)?,
                old,
                new,
                standing,
                lengths,
            });
        }
    }
    Ok(upgrades)
}

/// The calls of an upgrade. Where a backup ends by it, it has to be forced, and else nothing is
/// written.
fn calls_of(bench: &Bench, old: &Tree, new: &Tree) -> Result<Vec<Logged>, String> {
    let ends = ends_one(sealed::open(file(new, BOOK)).book);
    let (wanted, left) = match ends {
        true => (status::USAGE, old),
        false => (status::DONE, new),
    };
    bench.store(old)?;
    let unforced = bench.ask(UNFORCED)?;
    if unforced.status != Some(wanted) || bench.load()? != *left {
        return Err(format!(
            "upgrade without --force ends with {}",
            unforced.words()
        ));
    }
    bench.store(old)?;
    Ok(bench.ask(LINE)?.calls)
}

fn file<'a>(tree: &'a Tree, name: &str) -> &'a [u8] {
    tree.file(name).expect("a whole store has this file")
}

/// The store of the first version once its book is sealed: no length was noted.
fn without_lengths(whole: &Tree, first: &Tree) -> Tree {
    let parts = sealed::open(file(whole, BOOK));
    let id = parts.seal.as_ref().expect("a sealed book").id;
    let mut tree = first.clone();
    tree.put(BOOK, sealed::make(parts.book, &[], id));
    tree
}

impl Upgrade {
    /// Which book is there; complains if it is neither, or if another file was changed.
    fn book(&self, tree: &Tree) -> Result<Book, String> {
        for name in [POOL, LOCK] {
            if tree.file(name) != self.old.file(name) {
                return Err(format!("{name} was changed"));
            }
        }
        let kept = tree.file(&self.kept);
        if kept.is_some() && kept != self.old.file(BOOK) {
            return Err("what is kept isn't the old book".into());
        }
        match tree.file(BOOK) {
            book if book == self.old.file(BOOK) => Ok(Book::Old),
            book if book == self.new.file(BOOK) => Ok(Book::New),
            _ => Err("the book is neither the old one nor the new one".into()),
        }
    }

    fn has_old(&self, tree: &Tree) -> bool {
        [BOOK, &self.kept]
            .iter()
            .any(|name| tree.file(name) == self.old.file(BOOK))
    }

    /// The old book is named as one by another command, the upgrade that is given again ends well,
    /// and every kept backup is there.
    fn ends_well(&self, bench: &mut Bench, book: Book) -> Result<(), String> {
        let audit = bench.ask(&format!("audit {STORE}"))?;
        let fine = match book {
            Book::Old => {
                audit.status == Some(status::STORE) && audit.errors.contains("aspenbox upgrade box")
            }
            Book::New => audit.status == Some(status::DONE),
        };
        if !fine {
            return Err(format!("audit ends with {}", audit.words()));
        }
        for _ in 0..2 {
            let again = bench.ask(LINE)?;
            if again.status != Some(status::DONE) {
                return Err(format!("given again, it ends with {}", again.words()));
            }
            if bench.load()? != self.new {
                return Err("given again, it leaves another store".into());
            }
        }
        self.reads(bench)
    }

    fn reads(&self, bench: &mut Bench) -> Result<(), String> {
        if self.lengths {
            return bench.opens(self.standing);
        }
        for (volume, number, _) in bench.judge.kept(self.standing.store) {
            let blocks = bench.judge.blocks(self.standing.store, volume, number);
            bench.restores(volume, number, &blocks)?;
        }
        Ok(())
    }
}

/// A fault in an upgrade.
pub struct Case<'u> {
    upgrade: &'u Upgrade,
    fault: Option<Fault>,
    /// The name of the call.
    call: &'u str,
}

/// Every fault of every call.
pub fn faults(upgrades: &[Upgrade]) -> Vec<Case<'_>> {
    cases(upgrades, |logged| logged.ways())
}

/// Those that a power cut follows, and none.
pub fn cut_off<'u>(upgrades: &'u [Upgrade], ways: &[How]) -> Vec<Case<'u>> {
    let without = upgrades.iter().map(|upgrade| Case {
        upgrade,
        fault: None,
        call: "",
    });
    without.chain(cases(upgrades, |_| ways.to_vec())).collect()
}

fn cases(upgrades: &[Upgrade], ways: impl Fn(&Logged) -> Vec<How>) -> Vec<Case<'_>> {
    let mut cases = Vec::new();
    for upgrade in upgrades {
        for logged in upgrade.calls.iter().filter(|logged| logged.number > 0) {
            cases.extend(ways(logged).into_iter().map(|how| Case {
                upgrade,
                fault: Some(Fault {
                    at: logged.number,
                    how,
                }),
                call: &logged.name,
            }));
        }
    }
    cases
}

pub fn label(case: &Case) -> String {
    match case.fault {
        Some(fault) => format!("{}, {fault} ({})", case.upgrade.what, case.call),
        None => case.upgrade.what.clone(),
    }
}

pub fn try_fault(bench: &mut Bench, case: &Case) -> Result<(), String> {
    let (upgrade, fault) = (case.upgrade, case.fault.expect("a fault"));
    bench.store(&upgrade.old)?;
    let ended = bench.ask_with(LINE, Some(fault))?;
    sweep::ended_as_planned(&ended, fault.how)?;
    let tree = bench.load()?;
    let book = upgrade.book(&tree)?;
    if ended.status == Some(status::DONE) && book == Book::Old {
        return Err("the command says that it is done, and it isn't".into());
    }
    nothing_left(case, &ended, book, &tree)?;
    upgrade.ends_well(bench, book)
}

/// Complains about files that nobody needs. The old book may be left beside a new one that isn't
/// there for good, and where it can't be removed.
fn nothing_left(case: &Case, ended: &Ended, book: Book, tree: &Tree) -> Result<(), String> {
    let may_leave = case.fault.is_some_and(|fault| fault.how.may_leave_files());
    let unsure = ended.status == Some(status::FILES) && book == Book::New;
    if tree.file(WRITTEN).is_some() && !may_leave {
        return Err(format!("{WRITTEN} is left"));
    }
    let kept = &case.upgrade.kept;
    if tree.file(kept).is_some() && !may_leave && !unsure && case.call != "unlink" {
        return Err(format!("{kept} is left"));
    }
    Ok(())
}

struct Cutter<'b, 'a> {
    bench: &'b mut Bench<'a>,
    upgrade: &'b Upgrade,
    cutting: Cutting<(Tree, Book)>,
}

/// The power is cut after each call, of the command and of the same one after the fault.
pub fn try_cuts(bench: &mut Bench, case: &Case, bounds: Bounds) -> Result<Counts, String> {
    let upgrade = case.upgrade;
    bench.store(&upgrade.old)?;
    let mut cutter = Cutter {
        bench,
        upgrade,
        cutting: Cutting::new(bounds, case.fault.map_or(0, |fault| fault.at)),
    };
    let mut disk = Disk::with(&upgrade.old);
    let mut done = false;
    for fault in case.fault.into_iter().map(Some).chain([None]) {
        done = cutter.process(&mut disk, fault, done)?;
    }
    let Cutter { bench, cutting, .. } = cutter;
    cutting.open_chosen(|(tree, book)| {
        bench.store(&tree)?;
        upgrade
            .ends_well(bench, book)
            .map_err(|why| format!("after a power cut that left the {book:?} book: {why}"))
    })
}

impl Cutter<'_, '_> {
    /// Runs the command and cuts the power at each of its calls; whether it is done for good then.
    fn process(
        &mut self,
        disk: &mut Disk,
        fault: Option<Fault>,
        mut done: bool,
    ) -> Result<bool, String> {
        let ended = self.bench.ask_with(LINE, fault)?;
        let seen = self.bench.load()?;
        self.upgrade.book(&seen)?;
        cut_along(disk, &ended.calls, &seen, |disk, _| self.cut(disk, done))?;
        done |= ended.status == Some(status::DONE);
        self.cut(disk, done)
            .map_err(|why| format!("after the command: {why}"))?;
        Ok(done)
    }

    /// In each state the book is whole. Until it is the new one in all of them, the old one is
    /// there in each.
    fn cut(&mut self, disk: &Disk, done: bool) -> Result<(), String> {
        let (mut sure, mut kept) = (true, true);
        self.cutting.cut(disk, |cutting, tree| {
            let book = self.upgrade.book(&tree)?;
            sure &= book == Book::New;
            kept &= self.upgrade.has_old(&tree);
            cutting.draw((tree, book), cutting.counts.cuts, cutting.bounds.opened);
            Ok(())
        })?;
        if done && !sure {
            return Err("the old book is back, and the command was done".into());
        }
        if !sure && !kept {
            return Err("the old book is gone, and the new one isn't there for good".into());
        }
        Ok(())
    }
}
