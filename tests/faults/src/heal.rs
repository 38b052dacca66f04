//! Blocks of the pool rot, and a command brings their bytes back from an image. Whatever goes wrong
//! then, every other block is whole, the same command ends well, and what is healed is synced
//! before the book that goes by it.

use reference::layout::{Book, BLOCK_BYTES, HELD};

use crate::bench::Bench;
use crate::calls::{Call, Logged, INTERRUPTED};
use crate::cutting::{cut_along, Bounds, Counts, Cutting};
use crate::disk::Disk;
use crate::fault::{Fault, How};
use crate::judge::{BOOK, POOL};
use crate::played::Scene;
use crate::program::{status, Ended};
use crate::sealed;
use crate::story::{Standing, STORE};
use crate::sweep;
use crate::tree::Tree;

/// A command that meets rotted blocks with an image that has their bytes.
pub struct Repair {
    what: String,
    line: String,
    /// The command that heals without a backup.
    scrub: String,
    /// The store before, as it should be, and as it is.
    whole: Tree,
    rotted: Tree,
    blocks: Vec<usize>,
    before: Standing,
    after: Standing,
    /// The writing calls when nothing goes wrong.
    calls: Vec<Logged>,
}

/// Each backup of the story that sends or keeps a held block, and a scrub in its place.
pub fn repairs(bench: &Bench, scenes: &[Scene]) -> Result<Vec<Repair>, String> {
    let story = bench.judge.story();
    let mut repairs = Vec::new();
    for (at, scene) in scenes.iter().enumerate() {
        let Some((aid, image)) = scene.command.file() else {
            continue;
        };
        let (before, after) = (story.standing(at), story.standing(at + 1));
        let mut whole = scene.tree.clone();
        whole.put(&aid, image.clone());
        let blocks = held_in(&whole, &image);
        if blocks.is_empty() {
            continue;
        }
        let scrub = format!("scrub {STORE} --heal {aid}");
        let lines = [
            (
                scene.command.to_string(),
                scene.command.words().join(" "),
                after,
            ),
            (
                format!("scrub before the {}", scene.command),
                scrub.clone(),
                before,
            ),
        ];
        for (what, line, after) in lines {
            let mut repair = Repair {
                what: format!("{what} over rotted blocks {blocks:?}"),
                line,
                scrub: scrub.clone(),
                rotted: rotted(&whole, &blocks),
                whole: whole.clone(),
                blocks: blocks.clone(),
                before,
                after,
                calls: Vec::new(),
            };
            bench.store(&repair.rotted)?;
            repair.calls = bench.ask(&repair.line)?.calls;
            repairs.push(repair);
        }
    }
    Ok(repairs)
}

/// The held blocks whose bytes the image has.
fn held_in(tree: &Tree, image: &[u8]) -> Vec<usize> {
    let file = |name| tree.file(name).expect("a store before a backup");
    let book = Book::over(sealed::open(file(BOOK)).book);
    let mut padded = image.to_vec();
    padded.resize(image.len().next_multiple_of(BLOCK_BYTES), 0);
    let has = |bytes: &[u8]| padded.chunks(BLOCK_BYTES).any(|block| block == bytes);
    book.pbns()
        .filter(|&pbn| book.entry(pbn).state == HELD && has(&file(POOL)[pbn.pool_range()]))
        .map(|pbn| pbn.index())
        .collect()
}

fn rotted(whole: &Tree, blocks: &[usize]) -> Tree {
    let mut pool = whole.file(POOL).unwrap_or_default().to_vec();
    for block in blocks {
        pool[BLOCK_BYTES * block + 100] ^= 0xFF;
        pool[BLOCK_BYTES * block + 300] ^= 1;
    }
    let mut tree = whole.clone();
    tree.put(POOL, pool);
    tree
}

impl Repair {
    /// The tree with the rotted blocks as they should be, and whether they are.
    fn mended(&self, tree: &Tree) -> (Tree, bool) {
        let (found, right) = (tree.file(POOL), self.whole.file(POOL));
        let (Some(found), Some(right)) = (found, right) else {
            return (tree.clone(), false);
        };
        let mut pool = found.to_vec();
        for block in &self.blocks {
            let range = BLOCK_BYTES * block..BLOCK_BYTES * (block + 1);
            pool[range.clone()].copy_from_slice(&right[range]);
        }
        let healed = pool == found;
        let mut tree = tree.clone();
        tree.put(POOL, pool);
        (tree, healed)
    }

    /// How far the store is, the rotted blocks aside, and whether these are healed.
    fn stands(&self, bench: &mut Bench, tree: &Tree) -> Result<(Standing, bool), String> {
        let (mended, healed) = self.mended(tree);
        let standing = bench.judge.stands(&mended)?;
        if standing != self.before && standing != self.after {
            return Err(format!(
                "{standing}, and neither {} nor {}",
                self.before, self.after
            ));
        }
        Ok((standing, healed))
    }

    fn backs_up(&self) -> bool {
        self.before != self.after
    }

    /// The same command again, and then all is whole; where a sync has failed, after a scrub.
    fn ends_well(&self, bench: &mut Bench, standing: Standing, doubt: bool) -> Result<(), String> {
        let again = bench.ask(&self.line)?;
        let taken = self.backs_up() && standing == self.after;
        let fine = match again.status {
            Some(status::DONE) => !taken,
            Some(status::REFUSED) => taken && again.errors.contains("refused 7:"),
            _ => false,
        };
        if !fine {
            return Err(format!("given again, it ends with {}", again.words()));
        }
        if doubt {
            bench.ask(&self.scrub)?;
        }
        let tree = bench.load()?;
        bench.judge.holds(&tree, self.after.store)?;
        bench.opens(self.after)?;
        // A command that was refused removes nothing.
        if taken {
            Ok(())
        } else {
            bench.nothing_left()
        }
    }
}

/// A fault in a repair.
pub struct Case<'r> {
    pub repair: &'r Repair,
    pub fault: Option<Fault>,
}

/// Every fault of every call.
pub fn faults(repairs: &[Repair]) -> Vec<Case<'_>> {
    let ways = |logged: &Logged| logged.ways();
    cases(repairs, &ways).collect()
}

/// Those that a power cut follows, and none.
pub fn cut_off<'r>(repairs: &'r [Repair], ways: &[How]) -> Vec<Case<'r>> {
    let own = |_: &Logged| ways.to_vec();
    let without = repairs.iter().map(|repair| Case {
        repair,
        fault: None,
    });
    without.chain(cases(repairs, &own)).collect()
}

fn cases<'r: 'w, 'w>(
    repairs: &'r [Repair],
    ways: &'w dyn Fn(&Logged) -> Vec<How>,
) -> impl Iterator<Item = Case<'r>> + 'w {
    repairs.iter().flat_map(move |repair| {
        let counted = repair.calls.iter().filter(|logged| logged.number > 0);
        counted.flat_map(move |logged| {
            let at = logged.number;
            let faults = ways(logged).into_iter().map(move |how| Fault { at, how });
            faults.map(move |fault| Case {
                repair,
                fault: Some(fault),
            })
        })
    })
}

pub fn label(case: &Case) -> String {
    match case.fault {
        Some(fault) => format!("{}, {fault}", case.repair.what),
        None => case.repair.what.clone(),
    }
}

pub fn try_fault(bench: &mut Bench, case: &Case) -> Result<(), String> {
    let (repair, fault) = (case.repair, case.fault.expect("a fault"));
    bench.store(&repair.rotted)?;
    let ended = bench.ask_with(&repair.line, Some(fault))?;
    sweep::ended_as_planned(&ended, fault.how)?;
    let tree = bench.load()?;
    let (standing, healed) = repair.stands(bench, &tree)?;
    if ended.status == Some(status::DONE) && (standing != repair.after || !healed) {
        return Err("the command says that it is done, and it isn't".into());
    }
    if repair.backs_up() && standing == repair.after && !healed {
        return Err("the new book goes by a block that isn't healed".into());
    }
    if !fault.how.may_leave_files() {
        bench.nothing_left()?;
    }
    repair.ends_well(bench, standing, false)
}

/// What is bound to be there.
#[derive(Clone, Copy)]
struct Bound {
    standing: Standing,
    healed: bool,
    /// Whether a sync has failed: healed blocks may be in memory alone, and nobody can tell.
    doubt: bool,
}

struct Cutter<'b, 'a> {
    bench: &'b mut Bench<'a>,
    repair: &'b Repair,
    cutting: Cutting<(Tree, Standing, bool)>,
}

/// The power is cut after each call, of the command and of the same one after the fault.
pub fn try_cuts(bench: &mut Bench, case: &Case, bounds: Bounds) -> Result<Counts, String> {
    let repair = case.repair;
    bench.store(&repair.rotted)?;
    let mut cutter = Cutter {
        bench,
        repair,
        cutting: Cutting::new(bounds, case.fault.map_or(0, |fault| fault.at)),
    };
    let mut disk = Disk::with(&repair.rotted);
    let mut bound = Bound {
        standing: repair.before,
        healed: false,
        doubt: false,
    };
    for fault in [case.fault, None]
        .into_iter()
        .take(1 + case.fault.iter().count())
    {
        bound = cutter.process(&mut disk, fault, bound)?;
    }
    let Cutter { bench, cutting, .. } = cutter;
    cutting.open_chosen(|(tree, standing, doubt)| {
        bench.store(&tree)?;
        repair
            .ends_well(bench, standing, doubt)
            .map_err(|why| format!("after a power cut that left {standing}: {why}"))
    })
}

impl Cutter<'_, '_> {
    /// Runs the command and cuts the power at each of its calls; what is bound to be there then.
    fn process(
        &mut self,
        disk: &mut Disk,
        fault: Option<Fault>,
        bound: Bound,
    ) -> Result<Bound, String> {
        let ended = self.bench.ask_with(&self.repair.line, fault)?;
        let seen = self.bench.load()?;
        let (reached, _) = self.repair.stands(self.bench, &seen)?;
        let after = |calls: &[Logged]| Bound {
            doubt: bound.doubt || calls.iter().any(is_failed_sync),
            ..bound
        };
        cut_along(disk, &ended.calls, &seen, |disk, calls| {
            self.cut(disk, after(calls))
        })?;
        let bound = promised(&ended, after(&ended.calls), reached);
        self.cut(disk, bound)
            .map_err(|why| format!("after the command: {why}"))?;
        Ok(bound)
    }

    fn cut(&mut self, disk: &Disk, bound: Bound) -> Result<(), String> {
        self.cutting.cut(disk, |cutting, tree| {
            let (standing, healed) = self.repair.stands(self.bench, &tree)?;
            if !standing.reaches(bound.standing) {
                return Err(format!("{standing}, and {} was promised", bound.standing));
            }
            if bound.healed && !healed {
                return Err("a healed block isn't there for good".into());
            }
            let goes_by_it = self.repair.backs_up() && standing == self.repair.after;
            if goes_by_it && !healed && !bound.doubt {
                return Err("the new book goes by a block that isn't healed".into());
            }
            let state = (tree, standing, bound.doubt);
            cutting.draw(state, cutting.counts.cuts, cutting.bounds.opened);
            Ok(())
        })
    }
}

fn is_failed_sync(logged: &Logged) -> bool {
    matches!(logged.call, Call::Sync { .. }) && logged.result < 0 && logged.result != INTERRUPTED
}

/// What is said to be done is there for good, and so is what a refusal goes by.
fn promised(ended: &Ended, bound: Bound, reached: Standing) -> Bound {
    match ended.status {
        Some(status::DONE | status::REFUSED) => Bound {
            standing: reached,
            healed: !bound.doubt,
            ..bound
        },
        _ => bound,
    }
}
