//! What a host is shown of a book: after the cases, at both ends of the ranges, and the order of
//! the checks.

use reference::agreement::check_view;
use reference::call::{Answer, Call, Stored};
use reference::cases::{after_d, backup, fingerprint, SIZES};
use reference::layout::{Book, Fingerprint, Header, Sizes};
use reference::plain::Plain;
use reference::random_calls::RandomCalls;
use reference::refusal::Refusal;
use reference::store::{self, Used, VolumeFacts, NO_END};
use reference::view::View;

/// The answers of a view that is accepted, and its rows in an output of the right length.
fn shown(book: &[u8], view: View) -> Result<(Vec<u16>, Vec<u8>), Refusal> {
    let mut output = vec![0xEE; view.output_bytes(book)];
    let answers = show(book, view, &mut output)?;
    Ok((answers, output))
}

fn show(book: &[u8], view: View, output: &mut [u8]) -> Result<Vec<u16>, Refusal> {
    Ok(match view {
        View::Sizes => {
            let sizes = store::sizes(book)?;
            vec![sizes.blocks, sizes.lbns, sizes.slots, sizes.records]
        }
        View::Used => {
            let used = store::used(book)?;
            vec![used.slots, used.records, used.day]
        }
        View::Volume { volume } => {
            let facts = store::volume(book, volume)?;
            let retired = facts.retired.unwrap_or(NO_END);
            vec![facts.retention, facts.backups, retired]
        }
        View::Backups { volume } => vec![store::backups(book, volume, output)?],
        View::Cells { volume } => store::cells(book, volume, output).map(|()| vec![])?,
        View::Blocks => store::blocks(book, output).map(|()| vec![])?,
    })
}

fn numbers(rows: &[u8]) -> Vec<u16> {
    let pairs = rows.chunks_exact(2);
    pairs.map(|p| u16::from_le_bytes([p[0], p[1]])).collect()
}

/// Day, records, last day kept and whether it is kept, of each backup.
fn backups(book: &[u8], volume: u16) -> Vec<[u16; 4]> {
    let (answers, rows) = shown(book, View::Backups { volume }).unwrap();
    assert_eq!(rows.len(), 8 * usize::from(answers[0]));
    let rows = rows.chunks(8);
    rows.map(|row| numbers(row).try_into().unwrap()).collect()
}

fn cells(book: &[u8], volume: u16) -> Vec<u16> {
    numbers(&shown(book, View::Cells { volume }).unwrap().1)
}

/// Held, count and expiry of each block, and its fingerprint.
fn blocks(book: &[u8]) -> Vec<([u16; 3], Fingerprint)> {
    let rows = shown(book, View::Blocks).unwrap().1;
    let rows = rows.chunks_exact(22);
    rows.map(|row| {
        let head = numbers(&row[..6]).try_into().unwrap();
        (head, row[6..].try_into().unwrap())
    })
    .collect()
}

fn used(slots: u16, records: u16, day: u16) -> Result<Used, Refusal> {
    Ok(Used {
        slots,
        records,
        day,
    })
}

fn facts(retention: u16, backups: u16) -> Result<VolumeFacts, Refusal> {
    Ok(VolumeFacts {
        retention,
        backups,
        retired: None,
    })
}

const NONE: u16 = NO_END;

#[test]
fn after_cases_a_to_d() {
    let book = &after_d().book;
    assert_eq!(store::sizes(book), Ok(SIZES));
    assert_eq!(store::used(book), used(4, 5, 9));
    assert_eq!(store::volume(book, 0), facts(10, 2));
    assert_eq!(store::volume(book, 1), facts(3, 2));
    assert_eq!(backups(book, 0), [[5, 2, 15, 1], [8, 1, NONE, 1]]);
    assert_eq!(backups(book, 1), [[6, 1, 9, 1], [9, 1, NONE, 1]]);
    assert_eq!(cells(book, 0), [2, 1, NONE, NONE]);
    assert_eq!(cells(book, 1), [NONE, NONE, NONE, 1]);
    let rows = [
        ([1, 0, 15], fingerprint('A')),
        ([1, 2, 0], fingerprint('B')),
        ([1, 1, 0], fingerprint('C')),
        ([0, 0, 0], [0; 16]),
    ];
    assert_eq!(blocks(book), rows);
}

#[test]
fn after_cases_e_to_j() {
    let mut stored = after_d();
    // e and f
    stored.call(&Call::Collect { day: 18 });
    assert_eq!(store::used(&stored.book), used(4, 5, 18));
    assert_eq!(backups(&stored.book, 0), [[5, 2, 15, 0], [8, 1, NONE, 1]]);
    assert_eq!(backups(&stored.book, 1)[0], [6, 1, 9, 0]);
    assert_eq!(blocks(&stored.book)[0], ([0, 0, 15], [0; 16]));
    // g
    stored.call(&Call::Collect { day: 19 });
    assert_eq!(backups(&stored.book, 0), [[5, 2, 15, 0], [8, 1, NONE, 1]]);
    // h: backup 2 isn't the newest any more, and its days have run out.
    stored.call(&backup(0, 20, &[(2, "DE")]));
    let rows = [[5, 2, 15, 0], [8, 1, 18, 0], [20, 2, NONE, 1]];
    assert_eq!(backups(&stored.book, 0), rows);
    assert_eq!(cells(&stored.book, 0), [2, 1, 3, 0]);
    assert_eq!(blocks(&stored.book)[0], ([1, 1, 15], fingerprint('E')));
    // i and j change nothing
    let before = View::all(0).map(|view| shown(&stored.book, view));
    let refused = stored.call(&backup(1, 21, &[(0, "F")]));
    assert_eq!(refused, Answer::Refused(Refusal::NoFreeBlock));
    assert_eq!(View::all(0).map(|view| shown(&stored.book, view)), before);
}

#[test]
fn a_volume_without_backups() {
    let mut book = after_d().book;
    store::enrol(&mut book, 7, 5_000).unwrap();
    assert_eq!(store::volume(&book, 7), facts(5_000, 0));
    assert_eq!(store::backups(&book, 7, &mut []), Ok(0));
    assert_eq!(cells(&book, 7), [NONE; 4]);
}

#[test]
fn both_ends_of_sizes_days_and_retentions() {
    for [blocks, lbns, slots, records] in [[1, 1, 1, 1], [4_096, 1_024, 1_024, 16_384]] {
        let sizes = Sizes {
            blocks,
            lbns,
            slots,
            records,
        };
        let mut book = Stored::new(sizes, Vec::new()).unwrap().book;
        store::enrol(&mut book, 7, 1).unwrap();
        assert_eq!(store::sizes(&book), Ok(sizes));
        assert_eq!(store::used(&book), used(0, 0, 0));
        assert_eq!(cells(&book, 7), vec![NONE; usize::from(lbns)]);
        assert_eq!(
            shown(&book, View::Blocks),
            Ok((vec![], vec![0; 22 * usize::from(blocks)]))
        );
    }
    let mut stored = after_d();
    store::enrol(&mut stored.book, 2, 5_000).unwrap();
    stored.call(&backup(2, 59_999, &[]));
    stored.call(&backup(2, 60_000, &[]));
    let rows = [[59_999, 0, 64_999, 1], [60_000, 0, NONE, 1]];
    assert_eq!(backups(&stored.book, 2), rows);
    assert_eq!(store::used(&stored.book), used(6, 5, 60_000));
}

/// A backup's own day plus the retention is the last day kept.
#[test]
fn kept_to_the_last_day() {
    let mut stored = after_d();
    for (day, kept) in [(14, 1), (15, 1), (16, 0), (18, 0)] {
        stored.call(&Call::Collect { day });
        assert_eq!(backups(&stored.book, 0)[0], [5, 2, 15, kept]);
        let read = store::read(&stored.book, &stored.pool, 0, 1, 0);
        assert_eq!(read.is_ok(), kept == 1);
    }
}

#[test]
fn volumes_above_7_and_those_not_enrolled() {
    let book = &after_d().book;
    for volume in [2, 7, 8, 256, 257, 65_535] {
        for view in [
            View::Volume { volume },
            View::Backups { volume },
            View::Cells { volume },
        ] {
            let mut output = [7; 100];
            assert_eq!(show(book, view, &mut output), Err(Refusal::Volume));
            assert_eq!(output, [7; 100]);
        }
    }
}

#[test]
fn outputs_short_exact_and_longer() {
    let book = &after_d().book;
    for (view, bytes) in [
        (View::Backups { volume: 1 }, 16),
        (View::Cells { volume: 1 }, 8),
        (View::Blocks, 88),
    ] {
        assert_eq!(view.output_bytes(book), bytes);
        let rows = shown(book, view).unwrap().1;
        for short in [0, 1, bytes / 2, bytes - 1] {
            let mut output = vec![7; short];
            assert_eq!(show(book, view, &mut output), Err(Refusal::ShortOutput));
            assert_eq!(output, vec![7; short]);
        }
        let mut longer = vec![7; bytes + 5];
        assert!(show(book, view, &mut longer).is_ok());
        assert_eq!(longer[..bytes], rows);
        assert_eq!(longer[bytes..], [7; 5]);
    }
}

#[test]
fn checks_in_order() {
    for from in [1, 2, 5, 20] {
        let mut book = after_d().book;
        if from <= 2 {
            Book::over(&mut book[..]).set_header(Header::Zero, 1);
        }
        if from <= 1 {
            book.push(0);
        }
        let volume = if from <= 5 { 8 } else { 0 };
        for view in View::all(volume) {
            let number = match view {
                View::Sizes | View::Used if from > 2 => continue,
                View::Volume { .. } if from > 5 => continue,
                View::Blocks if from == 5 => 20,
                _ => from,
            };
            let refused = show(&book, view, &mut [7; 3]);
            assert_eq!(refused.map_err(Refusal::number), Err(number), "{view:?}");
        }
    }
}

fn agrees(plain: &Plain, book: &[u8], view: View) {
    let shown = shown(book, view);
    let answers: Vec<u32> = match &shown {
        Ok((answers, _)) => answers.iter().map(|&answer| answer.into()).collect(),
        Err(_) => Vec::new(),
    };
    let shown = match &shown {
        Ok((_, rows)) => Ok((&answers[..], &rows[..])),
        Err(refusal) => Err(refusal.number()),
    };
    assert_eq!(check_view(plain, view, shown), Ok(()));
}

#[test]
fn the_plain_store_is_shown_alike() {
    for seed in 0..60 {
        let mut calls = RandomCalls::seeded(seed);
        let sizes = calls.sizes();
        let mut stored = Stored::new(sizes, calls.first_pool()).unwrap();
        let mut plain = Plain::new(sizes);
        for _ in 0..100 {
            let call = calls.next_call();
            let answer = stored.call(&call);
            plain.call(&call);
            calls.learn(&call, &answer);
            for volume in 0..9 {
                for view in View::all(volume) {
                    agrees(&plain, &stored.book, view);
                }
            }
        }
    }
}
