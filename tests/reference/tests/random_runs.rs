//! Seeded runs in which the box, the plain store and the history must agree throughout.

use std::collections::BTreeSet;

use reference::agreement;
use reference::call::{Answer, Call, Stored};
use reference::change_list::list_bytes;
use reference::history::History;
use reference::layout::{Book, VOLUMES};
use reference::plain::Plain;
use reference::prng::Prng;
use reference::random_calls::{RandomCalls, Shape};
use reference::refusal::Refusal;
use reference::store;

const RUNS: u64 = 300;
const CALLS: usize = 150;

/// What the runs came upon, so that none of it goes untested.
#[derive(Default)]
struct Seen {
    refusals: BTreeSet<u16>,
    freed: u64,
    taken: u64,
    shared: u64,
    blocks_read: u64,
    kept_read: u64,
    /// Restores of several blocks.
    restored: u64,
    /// Backups of more changes than fit in one run.
    in_pieces: u64,
    /// Runs that end with a count above 255.
    wide_counts: u64,
    /// Retirements of volumes with mapped cells, and without backups.
    retired: [u64; 2],
    /// Reads of a retired volume's backups, and those refused by 16.
    retired_read: [u64; 2],
}

impl Seen {
    fn note(&mut self, call: &Call, answer: &Answer, history: &History) {
        if let Call::Read { volume, .. } = call {
            let of_retired = history.is_retired(*volume);
            let gone = *answer == Answer::Refused(Refusal::NotKept);
            let block = matches!(answer, Answer::Block(_));
            self.retired_read[0] += u64::from(of_retired && block);
            self.retired_read[1] += u64::from(of_retired && gone);
        }
        match (call, answer) {
            (_, Answer::Refused(refusal)) => {
                self.refusals.insert(refusal.number());
            }
            (Call::Retire { volume, .. }, Answer::Retired(cells)) => {
                self.retired[0] += u64::from(*cells > 0);
                self.retired[1] += u64::from(history.backups(*volume) == 0);
            }
            (_, Answer::Freed(freed)) => self.freed += u64::from(*freed),
            (Call::Backup { list, .. }, Answer::BackedUp(backed_up)) => {
                self.taken += u64::from(backed_up.taken);
                self.shared += u64::from(backed_up.touched > backed_up.taken);
                self.in_pieces += u64::from(list.len() >= list_bytes(2, 65));
            }
            (Call::Read { volume, number, .. }, Answer::Block(_)) => {
                self.blocks_read += 1;
                self.kept_read += u64::from(usize::from(*number) < history.backups(*volume));
            }
            (_, Answer::Run(blocks)) => self.restored += u64::from(blocks.len() > 512),
            _ => {}
        }
    }
}

fn stores_agree(stored: &Stored, plain: &Plain) {
    let agreement = agreement::check(&stored.book, &stored.pool, plain);
    assert_eq!(agreement, Ok(()));
    assert_eq!(store::audit(&stored.book), Ok(true));
}

/// Reads of every backup at LBNs all over the volume, and one past its end.
fn reads_agree(stored: &Stored, plain: &Plain, history: &History, lbns: u16) {
    let step = usize::from(lbns / 8).max(1);
    for volume in 0..u16::from(VOLUMES) {
        for number in 0..=history.backups(volume) as u16 + 1 {
            for lbn in (0..lbns).step_by(step).chain([lbns]) {
                let expected = history.read(volume, number, lbn);
                assert_eq!(plain.read(volume, number, lbn), expected);
                let ours = store::read(&stored.book, &stored.pool, volume, number, lbn);
                assert_eq!(ours, expected.map(|block| &block[..]));
            }
        }
    }
}

fn changes_nothing(answer: &Answer) -> bool {
    matches!(
        answer,
        Answer::Refused(_) | Answer::Block(_) | Answer::Run(_) | Answer::Sound(_)
    )
}

fn run(label: &str, mut calls: RandomCalls, number: usize, seen: &mut Seen) {
    let sizes = calls.sizes();
    let pool = calls.first_pool();
    let mut stored = Stored::new(sizes, pool).expect("sizes in range");
    let mut plain = Plain::new(sizes);
    let mut history = History::new(sizes.lbns);
    let mut prng = Prng::seeded(number as u64);
    for index in 0..2 * number {
        // Each call comes with a restore.
        let call = match index % 2 {
            0 => Call::Restore(calls.restore(&mut prng)),
            _ => calls.next_call(),
        };
        let before = stored.clone();
        let answer = stored.call(&call);
        assert_eq!(plain.call(&call), answer, "{label}, {call:?}");
        if let Some(past) = history.answer(&call) {
            assert_eq!(answer, past, "{label}, {call:?}");
        }
        if changes_nothing(&answer) {
            assert!(stored.book == before.book && stored.pool == before.pool);
        }
        history.note(&call, &answer);
        stores_agree(&stored, &plain);
        seen.note(&call, &answer, &history);
        calls.learn(&call, &answer);
    }
    reads_agree(&stored, &plain, &history, sizes.lbns);
    let book = Book::over(&stored.book[..]);
    let wide = book.pbns().any(|pbn| book.entry(pbn).count > 255);
    seen.wide_counts += u64::from(wide);
}

#[test]
fn box_plain_store_and_history_agree() {
    let mut seen = Seen::default();
    for seed in 0..RUNS {
        let calls = RandomCalls::seeded(seed);
        run(&format!("seed {seed}"), calls, CALLS, &mut seen);
    }
    // 13 and 14 come of damage alone.
    let reachable: BTreeSet<u16> = (5..=12).chain(15..=18).chain([21]).collect();
    assert_eq!(seen.refusals, reachable);
    assert!(seen.wide_counts > 5, "{}", seen.wide_counts);
    let retired = [seen.retired, seen.retired_read].concat();
    assert!(retired.iter().all(|&times| times > 40), "{retired:?}");
    let counts = [
        seen.freed,
        seen.taken,
        seen.shared,
        seen.blocks_read,
        seen.kept_read,
        seen.restored,
    ];
    assert!(counts.iter().all(|&times| times > 500), "{counts:?}");
}

#[test]
fn they_agree_on_rows_in_several_runs() {
    let mut seen = Seen::default();
    for seed in 0..20 {
        let calls = RandomCalls::shaped(Shape::Pieces, seed);
        run(&format!("pieces, seed {seed}"), calls, 60, &mut seen);
    }
    assert!(seen.in_pieces > 50, "{}", seen.in_pieces);
    assert!(seen.refusals.contains(&Refusal::List.number()));
}

#[test]
fn they_agree_on_the_largest_book() {
    let mut seen = Seen::default();
    for seed in 0..2 {
        let calls = RandomCalls::shaped(Shape::Largest, seed);
        run(&format!("largest, seed {seed}"), calls, 60, &mut seen);
    }
    assert!(seen.taken > 1_000, "{}", seen.taken);
}
