//! Days from the taking, at their ends: the last day on which a backup is kept and the day after, what
//! is gone at once after a pause, and a damaged book in which there is no day to count from.

use reference::call::{Answer, Call, Stored};
use reference::cases::{self, after_d, SIZES};
use reference::layout::{Book, Lbn, Pbn};
use reference::plain::Plain;
use reference::prng::Prng;
use reference::store;

use super::tested::Tested;
use super::{runs, views, Job};
use crate::outcome::Outcome;
use crate::request::Request;
use crate::seen::equal;

const PART: &str = "days from the taking";

type Label<'a> = &'a dyn Fn() -> String;

pub fn jobs() -> Vec<Job> {
    let works = [send_pauses, send_collects, send_without_previous];
    works.map(|work| Job::new(PART, work)).into()
}

/// The days of a run: three backups of volume 0, the second without changes, and one of another volume
/// before the third.
struct Pause {
    retention: u16,
    backups: [u16; 3],
    /// The expiry of the block that the third replaces: the second's day and the retention.
    expiry: u16,
}

const PAUSES: [Pause; 6] = [
    // Counted from the first backup it would be 4, from the third 9.
    Pause {
        retention: 3,
        backups: [1, 5, 6],
        expiry: 8,
    },
    // The second is kept for one day more.
    Pause {
        retention: 3,
        backups: [1, 5, 8],
        expiry: 8,
    },
    // And here it is gone the moment that the third is taken.
    Pause {
        retention: 3,
        backups: [1, 5, 9],
        expiry: 8,
    },
    Pause {
        retention: 1,
        backups: [0, 1, 40_000],
        expiry: 2,
    },
    Pause {
        retention: 5_000,
        backups: [0, 59_998, 60_000],
        expiry: 64_998,
    },
    Pause {
        retention: 5_000,
        backups: [54_000, 54_999, 60_000],
        expiry: 59_999,
    },
];

fn send_pauses(outcome: &mut Outcome) {
    for pause in &PAUSES {
        let label = || format!("backups on {:?}, {} days", pause.backups, pause.retention);
        send_pause(outcome, &label, pause);
    }
}

/// Each call in step with the plain store, then a collect on each day around the last.
fn send_pause(outcome: &mut Outcome, label: Label, pause: &Pause) -> Option<()> {
    let mut prng = Prng::seeded(0);
    let pool = vec![0; SIZES.pool_bytes()];
    let mut tested = Tested::format(outcome, &mut prng, label, SIZES, pool)?;
    let mut plain = Plain::new(SIZES);
    let [first, second, third] = pause.backups;
    let enrol = |volume, retention| Call::Enrol { volume, retention };
    let mut calls = vec![
        enrol(0, pause.retention),
        enrol(1, 1),
        cases::backup(0, first, &[(0, "A")]),
        cases::backup(0, second, &[]),
        cases::backup(1, third, &[(0, "C")]),
        cases::backup(0, third, &[(0, "B")]),
    ];
    let days = pause.expiry.max(third)..=(pause.expiry + 2).min(60_000);
    calls.extend(days.flat_map(|day| [Call::Collect { day }, Call::Audit]));
    for call in calls {
        let answer = plain.call(&call);
        let seen = tested.call(outcome, &mut prng, label, &call)?;
        let agrees = runs::answers_agree(&answer, &seen, &tested.0.pool);
        outcome.check(label, agrees);
        send_reads(outcome, &mut prng, label, (&tested.0, &plain));
    }
    let expiry = Book::over(&tested.0.book[..]).entry(Pbn(0)).expiry;
    outcome.check(label, equal("the expiry", expiry, pause.expiry));
    Some(())
}

/// LBN 0 of each backup, and the rows of all of them.
fn send_reads(
    outcome: &mut Outcome,
    prng: &mut Prng,
    label: Label,
    (stored, plain): (&Stored, &Plain),
) {
    for number in 1..=3 {
        let (volume, lbn) = (0, 0);
        let call = &Call::Read {
            volume,
            number,
            lbn,
        };
        let Some(seen) = outcome.compare(prng, label, Request::Call { stored, call }) else {
            return;
        };
        let block = plain.read(volume, number, lbn);
        let answer = block.map_or_else(Answer::Refused, |block| Answer::Block(Box::new(*block)));
        outcome.check(label, runs::answers_agree(&answer, &seen, &stored.pool));
    }
    views::send_plain(outcome, prng, label, (&stored.book, plain), &[0]);
}

/// After case d block 0 waits to day 15, and not to day 18 as it did by the backup that replaces.
fn send_collects(outcome: &mut Outcome) {
    let mut prng = Prng::seeded(0);
    for day in 9..=20 {
        let (stored, call) = (&after_d(), &Call::Collect { day });
        let label = || format!("a collect on {day}");
        let Some(seen) = outcome.compare(&mut prng, &label, Request::Call { stored, call }) else {
            return;
        };
        let freed = equal("freed", seen.answers[0].1, Some((day > 15).into()));
        outcome.check(&label, freed);
    }
}

/// A damaged book: the map of a volume without backups has a block. Its expiry becomes the larger of
/// itself and 0 plus the retention.
fn send_without_previous(outcome: &mut Outcome) {
    let mut prng = Prng::seeded(0);
    for retention in [1, 2, 7, 5_000] {
        for before in [0, retention - 1, retention, retention + 1, 65_000] {
            let stored = &named_by_map(retention, before);
            let call = &cases::backup(2, 10, &[(0, "C")]);
            let label = || format!("no previous backup, {retention} days, expiry {before}");
            let Some(seen) = outcome.compare(&mut prng, &label, Request::Call { stored, call })
            else {
                return;
            };
            let expiry = Book::over(seen.content(0)).entry(Pbn(1)).expiry;
            let larger = equal("the expiry", expiry, before.max(retention));
            outcome.check(&label, larger);
        }
    }
}

/// The box after case d with volume 2 enrolled, and block 1 of this expiry in its map.
fn named_by_map(retention: u16, expiry: u16) -> Stored {
    let mut stored = after_d();
    store::enrol(&mut stored.book, 2, retention).expect("a volume that isn't enrolled");
    let mut book = Book::over(&mut stored.book[..]);
    book.set_cell(2, Lbn(0), Pbn(1));
    book.edit_entry(Pbn(1), |entry| entry.expiry = expiry);
    stored
}
