//! Counts at the ends of what two bytes hold, on damaged books; and as far as calls bring them, on a
//! fresh one.

use reference::call::{Call, Stored};
use reference::cases::{self, after_d};
use reference::layout::{self, Book, Pbn, Sizes, HELD};
use reference::plain::Plain;
use reference::prng::Prng;

use super::tested::Tested;
use super::Job;
use crate::outcome::Outcome;
use crate::request::Request;
use crate::seen::equal;

const PART: &str = "counts at their ends";

pub fn jobs() -> Vec<Job> {
    let works = [
        send_raised,
        send_waiting,
        send_most_references,
        send_every_cell,
    ];
    works.map(|work| Job::new(PART, work)).into()
}

/// Both ends, and where the high byte changes.
const COUNTS: [u16; 12] = [
    0, 1, 254, 255, 256, 257, 511, 512, 65_532, 65_533, 65_534, 65_535,
];

/// The box after case d with this count of a block.
fn with_count(pbn: u16, count: u16) -> Stored {
    let mut stored = after_d();
    let mut book = Book::over(&mut stored.book[..]);
    book.edit_entry(Pbn(pbn), |entry| entry.count = count);
    stored
}

/// Lists for volume 0 of the box after case d, in which block 2 is C and stands at LBN 0; with the
/// most that each brings its count above what it was.
const LISTS: [(&[(u16, &str)], u32); 7] = [
    (&[(0, "C")], 0),
    (&[(1, "C")], 1),
    (&[(2, "C")], 1),
    (&[(0, "CC")], 1),
    (&[(0, "BC")], 0),
    (&[(1, "CC")], 2),
    (&[(1, "CCC")], 3),
];

/// 14 comes exactly where a count would pass 65,535. What a refused call leaves is compared with what
/// was sent.
fn send_raised(outcome: &mut Outcome) {
    let mut prng = Prng::seeded(0);
    for count in COUNTS.into_iter().filter(|&count| count > 0) {
        for (runs, most) in LISTS {
            let stored = &with_count(2, count);
            let call = &cases::backup(0, 10, runs);
            let label = || format!("count {count}, {runs:?}");
            let Some(seen) = outcome.compare(&mut prng, &label, Request::Call { stored, call })
            else {
                return;
            };
            let full = u32::from(count) + most > 65_535;
            let number = if full { 14 } else { 0 };
            outcome.check(&label, equal("the number", seen.number, number));
        }
    }
}

/// Block 0 waits with count 0 alone, and no map names it.
fn send_waiting(outcome: &mut Outcome) {
    let mut prng = Prng::seeded(0);
    let calls = [Call::Collect { day: 60_000 }, Call::Audit];
    for count in COUNTS {
        let stored = &with_count(0, count);
        let label = || format!("count {count} of a block that waits");
        for call in &calls {
            let Some(seen) = outcome.compare(&mut prng, &label, Request::Call { stored, call })
            else {
                return;
            };
            let answer = equal("the answer", seen.answers[0].1, Some((count == 0).into()));
            outcome.check(&label, answer);
        }
        let book = &stored.book;
        outcome.compare(&mut prng, &label, Request::Count { book });
    }
}

/// References that need four bytes.
fn send_most_references(outcome: &mut Outcome) {
    let mut prng = Prng::seeded(0);
    let label = || "300 counts of 65,535".to_string();
    let sizes = Sizes {
        blocks: 300,
        lbns: 1,
        slots: 1,
        records: 1,
    };
    let mut book = vec![0; sizes.book_bytes()];
    layout::format(&mut book, sizes);
    let mut view = Book::over(&mut book[..]);
    for pbn in view.pbns() {
        view.edit_entry(pbn, |entry| (entry.state, entry.count) = (HELD, 65_535));
    }
    let Some(seen) = outcome.compare(&mut prng, &label, Request::Count { book: &book }) else {
        return;
    };
    let references = equal("references", seen.answers[3].1, Some(300 * 65_535));
    outcome.check(&label, references);
}

/// One block in every cell of eight maps of 1,024, twice over: no list from a fresh book has more.
fn send_every_cell(outcome: &mut Outcome) {
    let mut prng = Prng::seeded(0);
    let label = || "one block in every cell".to_string();
    let sizes = Sizes {
        blocks: 2,
        lbns: 1_024,
        slots: 16,
        records: 16_384,
    };
    let pool = vec![0; sizes.pool_bytes()];
    let Some(mut tested) = Tested::format(outcome, &mut prng, &label, sizes, pool) else {
        return;
    };
    let mut plain = Plain::new(sizes);
    let piece = "A".repeat(64);
    let runs: Vec<(u16, &str)> = (0..16).map(|index| (64 * index, &piece[..])).collect();
    let enrols = (0..8).map(|volume| Call::Enrol {
        volume,
        retention: 1,
    });
    let backups = (1..=2).flat_map(|day| (0..8).map(move |volume| (volume, day)));
    let backups = backups.map(|(volume, day)| cases::backup(volume, day, &runs));
    for call in enrols.chain(backups).chain([Call::Audit]) {
        let answer = plain.call(&call);
        let Some(seen) = tested.call(outcome, &mut prng, &label, &call) else {
            return;
        };
        let agrees = super::runs::answers_agree(&answer, &seen, &tested.0.pool);
        outcome.check(&label, agrees);
    }
    let Stored { book, .. } = &tested.0;
    let count = Book::over(&book[..]).entry(Pbn(0)).count;
    outcome.check(&label, equal("the count", count, 8_192));
}
