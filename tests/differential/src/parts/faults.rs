//! The order of the checks: each call with every set of faults at once is refused by the first.

use reference::call::{Call, Stored};
use reference::cases;
use reference::layout::{Book, Header, Lbn, Pbn};
use reference::layout_2::renumbered;
use reference::play::encode;
use reference::prng::Prng;
use reference::random_books::narrowed;
use reference::store::{self, Run, Way};
use reference::view::View;

use super::{converts, play, restores, views, Job};
use crate::outcome::Outcome;
use crate::request::Request;
use crate::seen::{equal, Seen};

/// The numbers that each call is tried with; the faults of a set go together.
const BACKUP: &[u16] = &[1, 2, 3, 4, 5, 7, 8, 9, 10, 11, 13, 14];
const RETIRE: &[u16] = &[1, 2, 4, 5, 7, 9, 10, 13];
const READ: &[u16] = &[1, 2, 3, 5, 15, 16, 17, 18];
/// In the order of the checks: 21 comes before 18.
const RESTORE: &[u16] = &[1, 2, 3, 5, 15, 16, 21, 18];
const ENROL: &[u16] = &[1, 2, 5, 6];
const COLLECT: &[u16] = &[1, 2, 7];
const BOOK: &[u16] = &[1, 2];
const VOLUME: &[u16] = &[1, 2, 5];
const VOLUME_ROWS: &[u16] = &[1, 2, 5, 20];
const BLOCK_ROWS: &[u16] = &[1, 2, 20];
const PLAY: &[u16] = &[19, 20];
/// To a later layout, and back.
const CONVERT: &[u16] = &[1, 2, 4];
const CONVERT_BACK: &[u16] = &[1, 2, 4, 22];

const PART: &str = "sets of faults";

type Make = fn(&Faults) -> Call;

pub fn jobs() -> Vec<Job> {
    let calls: [(&[u16], Make); 5] = [
        (BACKUP, Faults::backup),
        (READ, Faults::read),
        (ENROL, Faults::enrol),
        (COLLECT, Faults::collect),
        (BOOK, |_| Call::Audit),
    ];
    let job = |(numbers, make)| Job::new(PART, move |o| send_calls(o, numbers, make));
    let mut jobs: Vec<Job> = calls.into_iter().map(job).collect();
    jobs.push(Job::new(PART, send_retires));
    jobs.push(Job::new(PART, send_restores));
    jobs.push(Job::new(PART, send_books));
    jobs.push(Job::new(PART, send_views));
    jobs.push(Job::new(PART, send_lists));
    jobs.push(Job::new(PART, send_converts));
    jobs
}

/// Every set of faults with these numbers.
fn sets(numbers: &[u16]) -> impl Iterator<Item = Faults> + '_ {
    (0..1u32 << numbers.len()).map(|set| {
        let chosen = numbers.iter().enumerate();
        let chosen = chosen.filter(|(bit, _)| set >> bit & 1 == 1);
        Faults(chosen.map(|(_, number)| *number).collect())
    })
}

fn send_calls(outcome: &mut Outcome, numbers: &[u16], make: Make) {
    let mut prng = Prng::seeded(0);
    for faults in sets(numbers) {
        let (stored, call) = (&faults.stored(), &make(&faults));
        send(outcome, &mut prng, &faults, Request::Call { stored, call });
    }
}

/// Retirements of volume 1, which have no cell but that of LBN 3 unless it is for 10.
fn send_retires(outcome: &mut Outcome) {
    let mut prng = Prng::seeded(0);
    for faults in sets(RETIRE) {
        for (stored, call) in faults.retires() {
            let (stored, call) = (&stored, &call);
            send(outcome, &mut prng, &faults, Request::Call { stored, call });
        }
    }
}

/// Every way in which a restore has these faults.
fn send_restores(outcome: &mut Outcome) {
    let mut prng = Prng::seeded(0);
    for faults in sets(RESTORE) {
        let stored = &faults.stored();
        for (run, room) in faults.restores() {
            let sent = (stored, run);
            let seen = restores::send(outcome, &mut prng, &faults.label(), sent, room);
            check_first(outcome, &faults, seen);
        }
    }
}

/// What lists of calls don't have, and takes the book alone.
fn send_books(outcome: &mut Outcome) {
    let mut prng = Prng::seeded(0);
    for faults in sets(BOOK) {
        let book = &faults.stored().book;
        for request in [Request::Form { book }, Request::Count { book }] {
            send(outcome, &mut prng, &faults, request);
        }
    }
}

/// What shows a book, with an output that is a byte short for 20.
fn send_views(outcome: &mut Outcome) {
    let mut prng = Prng::seeded(0);
    let numbers = [BOOK, BOOK, VOLUME, VOLUME_ROWS, VOLUME_ROWS, BLOCK_ROWS];
    for (index, numbers) in numbers.into_iter().enumerate() {
        for faults in sets(numbers) {
            let room = View::all(1)[index].output_bytes(&cases::after_d().book);
            let room = room - usize::from(faults.has(20));
            let view = View::all(faults.either(5, 8, 1))[index];
            let book = &faults.stored().book[..];
            let seen = views::send(outcome, &mut prng, &faults.label(), (book, view), room);
            check_first(outcome, &faults, seen);
        }
    }
}

/// Lists with a byte after their end for 19, and with room that is a byte short for 20; what is
/// wrong with the book refuses calls, and no list.
fn send_lists(outcome: &mut Outcome) {
    let mut prng = Prng::seeded(0);
    for damage in sets(&[1, 2, 3, 4]) {
        for faults in sets(PLAY) {
            let restore = Call::Restore(damage.restores()[0].0);
            let retire = damage.retires().remove(0).1;
            let calls = [damage.backup(), damage.read(), restore, retire, Call::Audit];
            let mut list = encode(&calls);
            let room = play::room_for(&list) - usize::from(faults.has(20));
            if faults.has(19) {
                list.push(0);
            }
            let sent = (&damage.stored(), &list[..]);
            let seen = play::send(outcome, &mut prng, &faults.label(), sent, room);
            check_first(outcome, &faults, seen);
        }
    }
}

/// Converters, with an output that is a byte short for 4, and with every kind of 1.
fn send_converts(outcome: &mut Outcome) {
    let mut prng = Prng::seeded(0);
    for way in Way::ALL {
        let numbers = match way {
            Way::OneToTwo | Way::TwoToThree => CONVERT,
            Way::TwoToOne => CONVERT_BACK,
        };
        for faults in sets(numbers) {
            for book in faults.books(way) {
                let room = cases::SIZES.book_bytes_in(way.to()) - usize::from(faults.has(4));
                let sent = (&book[..], way);
                let seen = converts::send(outcome, &mut prng, &faults.label(), sent, room);
                check_first(outcome, &faults, seen);
            }
        }
    }
}

fn send(outcome: &mut Outcome, prng: &mut Prng, faults: &Faults, request: Request) {
    let seen = outcome.compare(prng, &faults.label(), request);
    check_first(outcome, faults, seen);
}

fn check_first(outcome: &mut Outcome, faults: &Faults, seen: Option<Seen>) {
    if let Some(seen) = seen {
        let first = faults.0.first().copied().unwrap_or(0);
        let first = equal("the first number", seen.number, first);
        outcome.check(&faults.label(), first);
    }
}

/// Numbers in the order of the checks, each for a fault in the arguments of a call on the box after
/// case d.
struct Faults(Vec<u16>);

impl Faults {
    fn label(&self) -> impl Fn() -> String + '_ {
        || format!("faults {:?}", self.0)
    }

    fn has(&self, number: u16) -> bool {
        self.0.contains(&number)
    }

    fn either<T>(&self, number: u16, faulty: T, sound: T) -> T {
        match self.has(number) {
            true => faulty,
            false => sound,
        }
    }

    fn stored(&self) -> Stored {
        let mut stored = cases::after_d();
        if self.has(9) {
            use_all_slots(&mut stored);
        }
        let mut book = Book::over(&mut stored.book[..]);
        if self.has(11) {
            stored.pool[Pbn(2).pool_range()].fill(0);
        }
        if self.has(13) {
            book.edit_entry(Pbn(1), |entry| entry.count = 0);
        }
        if self.has(14) {
            book.edit_entry(Pbn(2), |entry| entry.count = 65_535);
        }
        if self.has(22) {
            book.edit_entry(Pbn(2), |entry| entry.count = 256);
        }
        if self.has(16) {
            book.set_header(Header::Day, 10);
        }
        if self.has(2) {
            book.set_header(Header::Zero, 1);
        }
        if self.has(1) {
            book.set_header(Header::Layout, 0);
        }
        if self.has(3) {
            stored.pool.pop();
        }
        if self.has(4) {
            stored.spare.pop();
        }
        stored
    }

    /// C is block 2, and volume 1 has block 1 at LBN 3.
    fn backup(&self) -> Call {
        let mut list = cases::list(self.either(10, &[(0, "CCCC")], &[(3, "C")]));
        if self.has(8) {
            list.push(0);
        }
        Call::Backup {
            volume: self.either(5, 8, 1),
            day: self.either(7, 60_001, 11),
            list,
        }
    }

    /// With 5 by a volume that there isn't, and by one that isn't enrolled. For 10 block 1 is in four
    /// cells of the map, and for 13 its count is 0.
    fn retires(&self) -> Vec<(Stored, Call)> {
        let mut stored = self.stored();
        let mut book = Book::over(&mut stored.book[..]);
        if self.has(10) {
            for lbn in (0..4).map(Lbn) {
                book.set_cell(1, lbn, Pbn(1));
            }
            let count = self.either(13, 0, 5);
            book.edit_entry(Pbn(1), |entry| entry.count = count);
        }
        let volumes: &[u16] = self.either(5, &[8, 2], &[1]);
        let day = self.either(7, 60_001, 11);
        let retire = |&volume: &u16| (stored.clone(), Call::Retire { volume, day });
        volumes.iter().map(retire).collect()
    }

    /// Volume 1's backup 1 is kept to day 9, and its newest one has a block at LBN 3 alone.
    fn read(&self) -> Call {
        Call::Read {
            volume: self.either(5, 2, 1),
            number: self.either(15, 0, self.either(16, 1, 2)),
            lbn: self.either(17, 4, self.either(18, 0, 3)),
        }
    }

    /// The same backups as `read`. The end, the room or both give 21; a run without a block gives no
    /// 18.
    fn restores(&self) -> Vec<(Run, usize)> {
        let run = |first, length| Run {
            volume: self.either(5, 2, 1),
            number: self.either(15, 0, self.either(16, 1, 2)),
            first,
            length,
        };
        let first = self.either(18, 2, 3);
        let (whole, longer) = (run(first, 4 - first), run(first, 5 - first));
        let none = run(self.either(21, 5, 4), 0);
        let mut restores = match self.has(21) {
            true => vec![
                (longer, longer.bytes()),
                (longer, longer.bytes() - 1),
                (whole, whole.bytes() - 1),
                (whole, whole.length.into()),
                (run(65_535, 65_535), 2_048),
            ],
            false => vec![(whole, whole.bytes()), (whole, whole.bytes() + 1)],
        };
        if !self.has(18) {
            restores.push((none, 0));
        }
        restores
    }

    /// The book in the layout that the converter takes, broken for 1 in each way.
    fn books(&self, way: Way) -> Vec<Vec<u8>> {
        let without_1 = Faults(self.0.iter().copied().filter(|&n| n != 1).collect());
        let wide = renumbered(&without_1.stored().book);
        let book = match way {
            Way::OneToTwo => narrowed(&wide).expect("a book of layout 2"),
            Way::TwoToOne | Way::TwoToThree => wide,
        };
        if !self.has(1) {
            return vec![book];
        }
        let numbered = |layout| {
            let mut book = book.clone();
            Book::over(&mut book[..]).set_header(Header::Layout, layout);
            book
        };
        let mut longer = book.clone();
        longer.push(0);
        let shorter = book[..book.len() - 1].to_vec();
        let others = (0..5).filter(|&layout| layout != way.from());
        let mut books: Vec<_> = others.map(numbered).collect();
        books.extend([numbered(256 + way.from()), longer, shorter]);
        books
    }

    fn enrol(&self) -> Call {
        Call::Enrol {
            volume: self.either(5, 1, 2),
            retention: self.either(6, 0, 5),
        }
    }

    fn collect(&self) -> Call {
        Call::Collect {
            day: self.either(7, 8, 20),
        }
    }
}

/// Uses the slots that are left by backups without changes.
fn use_all_slots(stored: &mut Stored) {
    for (volume, day) in [(0, 9), (1, 10)] {
        let Stored { book, pool, spare } = stored;
        let result = store::backup(book, pool, spare, volume, day, &[0, 0]);
        result.expect("two slots are free");
    }
}
