//! Damaged stores: every command notices, names the number of what is out of form, and writes
//! nothing.

mod layouts;

use std::fs;
use std::os::unix::fs::MetadataExt;
use std::path::Path;

use reference::form;
use reference::layout::LAYOUT;
use reference::store;

use crate::bench::{or_complain, Bench};
use crate::first::made_first;
use crate::judge::{BOOK, LOCK, POOL};
use crate::program::{status, Ended};
use crate::sealed::{self, Parts, SEAL_BYTES};
use crate::story::STORE;
use crate::tree::Tree;

/// A damaged store, and a command that is given to it.
pub struct Case {
    what: String,
    tree: Tree,
    line: &'static str,
    /// The standard streams that it is started without, as a shell closes them.
    closed: &'static str,
    wanted: Wanted,
}

#[derive(Clone)]
enum Wanted {
    /// The status of a damaged store, and this text.
    Told(String),
    /// A warning, and no good end.
    Warned,
    /// This status.
    Status(i32),
    /// However it ends.
    Any,
}

/// What the second implementation says of a store.
enum Verdict {
    /// The book is out of form, by this number.
    Refused(u16),
    /// It is in form in the layout before today's, which one bit of the layout number makes of it.
    Older,
    /// It is in form, and something else is wrong with it.
    Faulty,
    Sound,
}

/// A command on the store, by what it does.
#[derive(Clone, Copy)]
struct Line {
    line: &'static str,
    writes: bool,
    takes_pool: bool,
}

const UPGRADE: Line = line("upgrade box --force", true, false);
const WRITERS: [Line; 6] = [
    line("enrol box 2 --keep 3", true, false),
    line("collect box --day-number 300 --ahead", true, false),
    line("backup box 0 aid0 --day-number 300 --ahead", true, true),
    line("retire box 0 --day-number 300 --ahead --yes", true, false),
    line("scrub box --heal aid0", true, true),
    UPGRADE,
];
const AUDIT: Line = line("audit box", false, false);
const RESTORE: Line = line("restore box 0 5 -", false, true);
const RESTORE_TO_FILE: &str = "restore box 0 5 new";
const READERS: [Line; 8] = [
    AUDIT,
    line("tally box", false, false),
    line("list box", false, false),
    line("status box", false, false),
    line("book box", false, false),
    line("read box 0 5 0", false, true),
    RESTORE,
    line("scrub box", false, true),
];
/// Lines that a whole store refuses.
const REFUSED: [&str; 5] = [
    "enrol box 0 --keep 5",
    "collect box --day-number 1",
    "backup box 0 aid0 --day-number 1",
    "retire box 0 --day-number 300 --ahead",
    "retire box 1 --day-number 300 --ahead --yes",
];

const fn line(line: &'static str, writes: bool, takes_pool: bool) -> Line {
    Line {
        line,
        writes,
        takes_pool,
    }
}

fn lines() -> impl Iterator<Item = Line> {
    WRITERS.into_iter().chain(READERS)
}

/// Damages of a whole store. Each changed byte is shown to a command that writes and to one that
/// reads, others at each byte; where `all` are wanted, it is changed in every bit. Older layouts have
/// no retired volume, and neither has the second store.
pub fn cases(whole: &Tree, unretired: &Tree, all: bool) -> Vec<Case> {
    let mut cases = Cases(Vec::new());
    cases.add_changed_books(whole, all, |_| true);
    cases.add_changed_books(&made_first(whole), all, |verdict| {
        !matches!(verdict, Verdict::Refused(_) | Verdict::Older)
    });
    cases.add_books_of_other_lengths(whole);
    cases.add_books_of_others(whole);
    cases.add_other_layouts(unretired, all);
    cases.add_changed_locks(whole, all);
    cases.add_missing(whole);
    cases.add_pools(whole);
    cases.add_closed_streams(whole);
    cases.0
}

fn file<'a>(tree: &'a Tree, name: &str) -> &'a [u8] {
    tree.file(name).expect("a whole store has this file")
}

fn with(whole: &Tree, name: &str, bytes: Vec<u8>) -> Tree {
    let mut tree = whole.clone();
    tree.put(name, bytes);
    tree
}

fn without(whole: &Tree, name: &str) -> Tree {
    let mut tree = whole.clone();
    tree.remove(name);
    tree
}

/// A changed book that is in form by itself, and which the audit finds unsound.
fn unsound_book(parts: &Parts) -> Vec<u8> {
    let changed = (0..parts.book.len()).map(|at| {
        let mut book = parts.book.to_vec();
        book[at] ^= 1;
        book
    });
    let mut unsound = changed.filter(|book| store::audit(book) == Ok(false));
    unsound.next().expect("some byte that the audit looks at")
}

/// A store with a lock of four lines has a sealed book; the lock itself is whole.
fn verdict(tree: &Tree) -> Verdict {
    let parts = sealed::open(file(tree, BOOK));
    let lines = file(tree, LOCK).iter().filter(|&&byte| byte == b'\n');
    if let Err(refusal) = form::check(parts.book) {
        return match form::check_in(LAYOUT - 1, parts.book) {
            Ok(_) => Verdict::Older,
            // One bit makes a book of that layout of it, which has no retired volume: refused by 2.
            Err(older) => Verdict::Refused(refusal.number().max(older.number())),
        };
    }
    let sealed = match &parts.seal {
        Some(seal) => seal.fits,
        None => lines.count() == 3,
    };
    if sealed && store::audit(parts.book) == Ok(true) {
        Verdict::Sound
    } else {
        Verdict::Faulty
    }
}

/// How a byte is changed, one of its bits and all of them.
fn masks(at: usize, all: bool) -> impl Iterator<Item = u8> {
    let bits = (0..8).filter(move |bit| all || *bit == at % 8);
    bits.map(|bit| 1 << bit).chain([0xFF])
}

struct Cases(Vec<Case>);

impl Cases {
    fn add(&mut self, what: &str, tree: &Tree, line: &'static str, wanted: Wanted) {
        self.0.push(Case {
            what: what.into(),
            tree: tree.clone(),
            line,
            closed: "",
            wanted,
        });
    }

    /// What a command says of a store whose book is damaged. Where nobody could see that, audit
    /// says yes.
    fn add_judged(&mut self, what: &str, tree: &Tree, line: Line) {
        let wanted = match verdict(tree) {
            Verdict::Refused(number) => Wanted::Told(format!("refused {number}:")),
            Verdict::Older => Wanted::Told("box/book is damaged: ".into()),
            Verdict::Faulty if line.writes => Wanted::Told("box/book is damaged: ".into()),
            Verdict::Faulty => Wanted::Warned,
            Verdict::Sound if line.writes => return,
            Verdict::Sound => {
                self.add(what, tree, AUDIT.line, Wanted::Status(status::DONE));
                return;
            }
        };
        // What is refused leaves no file either.
        let refused = matches!(wanted, Wanted::Told(_)) && line.line == RESTORE.line;
        let line = if refused { RESTORE_TO_FILE } else { line.line };
        self.add(what, tree, line, wanted);
    }

    fn add_changed_books(&mut self, whole: &Tree, all: bool, wanted: impl Fn(Verdict) -> bool) {
        let book = file(whole, BOOK);
        let kind = match sealed::open(book).seal {
            Some(_) => "book",
            None => "book without a seal",
        };
        let mut turn = 0;
        for at in 0..book.len() {
            for mask in masks(at, all) {
                let mut changed = book.to_vec();
                changed[at] ^= mask;
                let what = format!("{kind} with byte {at} changed by {mask:#04x}");
                let tree = with(whole, BOOK, changed);
                if !wanted(verdict(&tree)) {
                    continue;
                }
                self.add_judged(&what, &tree, WRITERS[turn % WRITERS.len()]);
                self.add_judged(&what, &tree, READERS[turn % READERS.len()]);
                turn += 1;
            }
        }
    }

    fn add_books_of_other_lengths(&mut self, whole: &Tree) {
        let book = file(whole, BOOK);
        let (bare, all) = (sealed::open(book).book.len(), book.len());
        let cuts = [0, 1, 19, 20, 36, all / 2, bare - 1, bare, bare + 1];
        for length in cuts.into_iter().chain([all - SEAL_BYTES, all - 1]) {
            let what = format!("book cut to {length} bytes");
            let tree = with(whole, BOOK, book[..length].to_vec());
            lines().for_each(|line| self.add_judged(&what, &tree, line));
        }
        let longer = with(whole, BOOK, [book, b"x"].concat());
        lines().for_each(|line| self.add_judged("book with a byte more", &longer, line));
    }

    /// Books that fit their digest, and yet aren't this store's.
    fn add_books_of_others(&mut self, whole: &Tree) {
        let parts = sealed::open(file(whole, BOOK));
        let id = parts.seal.as_ref().expect("a sealed book").id;
        let unsound = sealed::make(&unsound_book(&parts), &parts.lengths, id);
        let unsound = with(whole, BOOK, unsound);
        lines().for_each(|line| self.add_judged("unsound book with a seal", &unsound, line));
        let foreign = sealed::make(parts.book, &parts.lengths, &[7; 16]);
        let foreign = with(whole, BOOK, foreign);
        for line in lines() {
            let wanted = match line.writes {
                true => Wanted::Told("the book of another store".into()),
                false => Wanted::Warned,
            };
            self.add("book of another store", &foreign, line.line, wanted);
        }
    }

    fn add_changed_locks(&mut self, whole: &Tree, all: bool) {
        let lock = file(whole, LOCK);
        let every: Vec<Line> = lines().collect();
        for at in 0..lock.len() {
            for mask in masks(at, all).chain([lock[at]]) {
                let mut changed = lock.to_vec();
                changed[at] ^= mask;
                let what = format!("lock with byte {at} changed by {mask:#04x}");
                let line = every[self.0.len() % every.len()].line;
                let wanted = Wanted::Told("box/lock is damaged".into());
                self.add(&what, &with(whole, LOCK, changed), line, wanted);
            }
        }
    }

    fn add_missing(&mut self, whole: &Tree) {
        for line in lines() {
            let no_store = Wanted::Told("is no store".into());
            for name in [BOOK, LOCK] {
                let what = format!("no {}", &name[STORE.len() + 1..]);
                self.add(&what, &without(whole, name), line.line, no_store.clone());
            }
            if line.takes_pool {
                self.add("no pool", &without(whole, POOL), line.line, no_store);
            }
            if line.line.contains("aid0") {
                let wanted = Wanted::Status(status::USAGE);
                self.add("no image", &without(whole, "aid0"), line.line, wanted);
            }
        }
    }

    fn add_pools(&mut self, whole: &Tree) {
        let pool = file(whole, POOL);
        for length in [0, 511, pool.len() - 1, pool.len() + 1] {
            let mut changed = pool.to_vec();
            changed.resize(length, 0);
            let tree = with(whole, POOL, changed);
            for line in lines().filter(|line| line.takes_pool) {
                let what = format!("pool of {length} bytes");
                let wanted = Wanted::Told("refused 3:".into());
                self.add(&what, &tree, line.line, wanted);
            }
        }
    }

    /// A whole store, to which no command writes what it has to say.
    fn add_closed_streams(&mut self, whole: &Tree) {
        let sets = [
            "<&-",
            ">&-",
            "2>&-",
            "<&- >&-",
            "<&- 2>&-",
            ">&- 2>&-",
            "<&- >&- 2>&-",
        ];
        let reading = READERS.iter().map(|line| line.line);
        for line in reading.chain(REFUSED) {
            for closed in sets {
                let what = format!("streams closed by {closed}");
                self.add(&what, whole, line, Wanted::Any);
                self.0.last_mut().expect("one was added").closed = closed;
            }
        }
    }
}

pub fn label(case: &Case) -> String {
    format!("{}, {}", case.what, case.line)
}

pub fn try_case(bench: &mut Bench, case: &Case) -> Result<(), String> {
    bench.store(&case.tree)?;
    let stamps = stamps(&bench.folder.join(STORE))?;
    let ended = bench.ask_without(case.closed, case.line, None)?;
    if bench.load()? != case.tree || self::stamps(&bench.folder.join(STORE))? != stamps {
        return Err("something was written".into());
    }
    if !is_wanted(&ended, &case.wanted) {
        return Err(format!("it ends with {}", ended.words()));
    }
    Ok(())
}

fn is_wanted(ended: &Ended, wanted: &Wanted) -> bool {
    match wanted {
        Wanted::Told(text) => {
            ended.status == Some(status::STORE) && ended.errors.contains(text.as_str())
        }
        // The box may refuse what is asked of such a book.
        Wanted::Warned => {
            let warned = ended.errors.contains("note: box/book is damaged: ")
                || ended.output.starts_with(b"unsound: ");
            warned && matches!(ended.status, Some(status::UNSOUND | status::REFUSED))
        }
        Wanted::Status(status) => ended.status == Some(*status),
        Wanted::Any => ended.status.is_some(),
    }
}

/// What changes when a file of the folder is written, even with the bytes it has.
fn stamps(folder: &Path) -> Result<Vec<[i64; 5]>, String> {
    let mut stamps = Vec::new();
    for entry in or_complain(fs::read_dir(folder))? {
        let found = or_complain(or_complain(entry)?.metadata())?;
        stamps.push([
            found.ino() as i64,
            found.mtime(),
            found.mtime_nsec(),
            found.ctime(),
            found.ctime_nsec(),
        ]);
    }
    stamps.sort_unstable();
    Ok(stamps)
}
