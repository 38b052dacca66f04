//! Retirements around the days that matter: the newest of a retired volume is read to its last day and
//! no longer, and what it named is freed then. And damaged books, of which some stop at a cell.

use reference::call::{Answer, Call, Stored};
use reference::cases::{self, after_d, SIZES};
use reference::history::History;
use reference::layout::{Book, Header, Lbn, Pbn, Sizes, HELD};
use reference::plain::Plain;
use reference::prng::Prng;
use reference::random_books::disturb;
use reference::random_calls::RandomCalls;
use reference::store;

use super::runs::disturbed;
use super::tested::Tested;
use super::{runs, views, Job};
use crate::outcome::Outcome;
use crate::request::Request;
use crate::seen::{equal, Seen};

const PART: &str = "retirements";

type Label<'a> = &'a dyn Fn() -> String;

pub fn jobs() -> Vec<Job> {
    let works = [
        send_days,
        send_every_volume,
        send_room,
        send_counts,
        send_without_previous,
        send_twice,
    ];
    works.map(|work| Job::new(PART, work)).into()
}

fn retire(volume: u16, day: u16) -> Call {
    Call::Retire { volume, day }
}

/// One of a run on a copy of its box that is disturbed, often at a block that the map names.
pub fn send_disturbed(
    outcome: &mut Outcome,
    prng: &mut Prng,
    label: Label,
    (stored, calls): (&Stored, &RandomCalls),
) {
    let call = &calls.retirement(prng);
    let mut stored = disturbed(prng, stored);
    if prng.once_in(2) && store::sizes(&stored.book).is_ok() {
        disturb(prng, &mut stored.book);
    }
    let (stored, label) = (&stored, || format!("{}, disturbed", label()));
    outcome.compare(prng, &label, Request::Call { stored, call });
}

/// A box in step with the plain store and the history.
struct Clinic {
    tested: Tested,
    plain: Plain,
    history: History,
    prng: Prng,
}

impl Clinic {
    fn new(outcome: &mut Outcome, label: Label, sizes: Sizes) -> Option<Self> {
        let mut prng = Prng::seeded(0);
        let pool = vec![0; sizes.pool_bytes()];
        Some(Clinic {
            tested: Tested::format(outcome, &mut prng, label, sizes, pool)?,
            plain: Plain::new(sizes),
            history: History::new(sizes.lbns),
            prng,
        })
    }

    fn call(&mut self, outcome: &mut Outcome, label: Label, call: &Call) -> Option<Seen> {
        let answer = self.plain.call(call);
        let seen = self.tested.call(outcome, &mut self.prng, label, call)?;
        let pool = &self.tested.0.pool;
        outcome.check(label, runs::answers_agree(&answer, &seen, pool));
        if let Some(past) = self.history.answer(call) {
            outcome.check(label, runs::answers_agree(&past, &seen, pool));
        }
        self.history.note(call, &answer);
        Some(seen)
    }

    /// Reads of each backup and the rows of this volume, and what the audit says.
    fn look(&mut self, outcome: &mut Outcome, label: Label, volume: u16) -> Option<()> {
        let backups = self.history.backups(volume) as u16;
        for number in 1..=backups + 1 {
            for lbn in 0..self.plain.sizes().lbns.min(4) {
                let read = Call::Read {
                    volume,
                    number,
                    lbn,
                };
                self.call(outcome, label, &read)?;
            }
        }
        self.call(outcome, label, &Call::Audit)?;
        let (book, plain) = (&self.tested.0.book, &self.plain);
        views::send_plain(outcome, &mut self.prng, label, (book, plain), &[volume]);
        Some(())
    }
}

/// Retention, the days of two backups, and that of the retirement.
const DAYS: [(u16, [u16; 2], u16); 8] = [
    // The newest is kept on for two days, for one, and to the day of the retirement.
    (3, [1, 5], 6),
    (3, [1, 5], 7),
    (3, [1, 5], 8),
    // It went the day before, and long ago.
    (3, [1, 5], 9),
    (1, [0, 1], 40_000),
    // At the ends.
    (1, [0, 1], 2),
    (5_000, [59_998, 59_999], 60_000),
    (5_000, [0, 55_000], 60_000),
];

/// An aid with two backups, the second with what it shares with another aid; collects on each day
/// around the newest's last.
fn send_days(outcome: &mut Outcome) {
    for (retention, [first, second], day) in DAYS {
        let label =
            || format!("backups on {first} and {second}, {retention} days, retired on {day}");
        let Some(mut clinic) = Clinic::new(outcome, &label, SIZES) else {
            return;
        };
        let enrol = |volume, retention| Call::Enrol { volume, retention };
        let mut calls = vec![
            enrol(0, retention),
            enrol(1, 1),
            cases::backup(0, first, &[(0, "AB")]),
            cases::backup(0, second, &[(1, "C")]),
            cases::backup(1, second, &[(3, "C")]),
            retire(0, second),
            retire(0, day),
            retire(0, day),
            enrol(0, retention),
            cases::backup(0, day, &[]),
            Call::Collect { day },
        ];
        let last = (second + retention).max(day);
        let days = last..=(last + 2).min(60_000);
        calls.extend(days.map(|day| Call::Collect { day }));
        for call in calls {
            if clinic.call(outcome, &label, &call).is_none() {
                return;
            }
            if clinic.look(outcome, &label, 0).is_none() {
                return;
            }
        }
    }
}

/// Eight volumes, each with one block in every cell; one after the other goes, and the last one's
/// retirement leaves no count.
fn send_every_volume(outcome: &mut Outcome) {
    let label = || "eight volumes retired".to_string();
    let sizes = Sizes {
        blocks: 2,
        lbns: 1_024,
        slots: 16,
        records: 16_384,
    };
    let Some(mut clinic) = Clinic::new(outcome, &label, sizes) else {
        return;
    };
    let piece = "A".repeat(64);
    let rows: Vec<(u16, &str)> = (0..16).map(|index| (64 * index, &piece[..])).collect();
    let enrols = (0..8).map(|volume| Call::Enrol {
        volume,
        retention: 1,
    });
    let backups = (0..8).map(|volume| cases::backup(volume, 1, &rows));
    for call in enrols.chain(backups) {
        if clinic.call(outcome, &label, &call).is_none() {
            return;
        }
    }
    for volume in 0..8 {
        let seen = clinic.call(outcome, &label, &retire(volume, 2));
        if seen.is_none() || clinic.look(outcome, &label, volume).is_none() {
            return;
        }
        let count = Book::over(&clinic.tested.0.book[..]).entry(Pbn(0)).count;
        outcome.check(&label, equal("the count", count, 1_024 * (7 - volume)));
    }
    for day in 2..=3 {
        clinic.call(outcome, &label, &Call::Collect { day });
    }
}

/// Books with just the slots and records that are needed, and with one less.
fn send_room(outcome: &mut Outcome) {
    for (slots, records) in [(2, 4), (1, 4), (2, 3), (1, 3), (2, 2), (3, 5)] {
        let label = || format!("retired with {slots} slots and {records} records");
        let sizes = Sizes {
            slots,
            records,
            ..SIZES
        };
        let Some(mut clinic) = Clinic::new(outcome, &label, sizes) else {
            return;
        };
        let enrol = |volume| Call::Enrol {
            volume,
            retention: 3,
        };
        for call in [
            enrol(0),
            enrol(1),
            cases::backup(0, 1, &[(0, "AB")]),
            retire(0, 2),
            retire(1, 2),
            cases::backup(1, 3, &[(0, "A")]),
        ] {
            if clinic.call(outcome, &label, &call).is_none() {
                return;
            }
        }
        clinic.look(outcome, &label, 0);
    }
}

/// Block 3 with this count, in so many cells of volume 0 after case d: 13 exactly where there are more
/// cells. What a refused call leaves is compared with what was sent.
fn send_counts(outcome: &mut Outcome) {
    let mut prng = Prng::seeded(0);
    for (count, cells) in [
        (0, 1),
        (1, 1),
        (0, 2),
        (1, 2),
        (2, 2),
        (2, 3),
        (3, 3),
        (65_535, 3),
    ] {
        // From the first LBN on, and after C.
        for first in 0..2.min(4 - cells) {
            let mut stored = after_d();
            let mut book = Book::over(&mut stored.book[..]);
            book.edit_entry(Pbn(3), |entry| (entry.state, entry.count) = (HELD, count));
            for lbn in 0..4 {
                let named = (first..first + cells).contains(&lbn);
                let other = book.cell(0, Lbn(lbn));
                // Three records are left.
                let other = if lbn < first { other } else { Pbn(65_535) };
                book.set_cell(0, Lbn(lbn), if named { Pbn(3) } else { other });
            }
            let (stored, call) = (&stored, &retire(0, 10));
            let label = || format!("count {count} of a block in {cells} cells from {first}");
            let Some(seen) = outcome.compare(&mut prng, &label, Request::Call { stored, call })
            else {
                return;
            };
            let full = if first + cells > 3 { 10 } else { 0 };
            let number = if full == 0 && count < cells { 13 } else { full };
            outcome.check(&label, equal("the number", seen.number, number));
        }
    }
}

/// A damaged book: the map of a volume without backups has a block. Its expiry becomes the larger of
/// itself and 0 plus the retention.
fn send_without_previous(outcome: &mut Outcome) {
    let mut prng = Prng::seeded(0);
    for retention in [1, 2, 7, 5_000] {
        for before in [0, retention - 1, retention, retention + 1, 65_000] {
            let mut stored = after_d();
            store::enrol(&mut stored.book, 2, retention).expect("a volume that isn't enrolled");
            let mut book = Book::over(&mut stored.book[..]);
            book.set_cell(2, Lbn(3), Pbn(1));
            book.edit_entry(Pbn(1), |entry| entry.expiry = before);
            let (stored, call) = (&stored, &retire(2, 10));
            let label = || format!("retired without backups, {retention} days, expiry {before}");
            let Some(seen) = outcome.compare(&mut prng, &label, Request::Call { stored, call })
            else {
                return;
            };
            let expiry = Book::over(seen.content(0)).entry(Pbn(1)).expiry;
            let larger = equal("the expiry", expiry, before.max(retention));
            outcome.check(&label, larger);
        }
    }
}

/// On a day that a refused call had, and on the header's; with every volume number around those that
/// there are.
fn send_twice(outcome: &mut Outcome) {
    let mut prng = Prng::seeded(0);
    let mut stored = after_d();
    let answer = stored.call(&retire(0, 10));
    assert_eq!(answer, Answer::Retired(2));
    for header in [10, 11, 60_000] {
        let mut stored = stored.clone();
        Book::over(&mut stored.book[..]).set_header(Header::Day, header);
        for volume in [0, 1, 2, 7, 8, 255, 256, 257, 65_535] {
            for day in [9, 10, 11, 60_000, 60_001] {
                let label = || format!("volume {volume} after volume 0, {day} after {header}");
                let enrol = Call::Enrol {
                    volume,
                    retention: 4,
                };
                for call in [retire(volume, day), cases::backup(volume, day, &[]), enrol] {
                    let (stored, call) = (&stored, &call);
                    outcome.compare(&mut prng, &label, Request::Call { stored, call });
                }
            }
        }
    }
}
