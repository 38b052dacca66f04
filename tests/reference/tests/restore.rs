//! Runs of blocks in one call, by document 02's sentence: what the reads one by one give, 21 before
//! 18 and in place of 17, and an output that a refusal leaves as it was.

use reference::call::{Answer, Call, Stored};
use reference::cases::{after_d, backup, block, two_records_in_a_slot, SIZES};
use reference::layout::{Book, Header, Lbn, Pbn, Sizes};
use reference::prng::Prng;
use reference::random_books::disturb;
use reference::random_calls::RandomCalls;
use reference::refusal::Refusal;
use reference::store::{self, Run};

/// The byte of an output before a call.
const FILL: u8 = 0xA5;

fn run(volume: u16, number: u16, first: u16, length: u16) -> Run {
    Run {
        volume,
        number,
        first,
        length,
    }
}

/// Restores to an output of so many bytes: the blocks, and the rest as it was; all of it as it was
/// after a refusal.
fn restored(stored: &Stored, run: Run, room: usize) -> Result<Vec<u8>, Refusal> {
    let mut output = vec![FILL; room];
    let result = store::restore(&stored.book, &stored.pool, run, &mut output);
    let written = result.map_or(0, |()| run.bytes());
    assert!(output[written..].iter().all(|&byte| byte == FILL));
    output.truncate(written);
    result.map(|()| output)
}

/// In an output of just the length.
fn exactly(stored: &Stored, run: Run) -> Result<Vec<u8>, Refusal> {
    restored(stored, run, run.bytes())
}

fn letters(text: &str) -> Result<Vec<u8>, Refusal> {
    Ok(text.chars().flat_map(block).collect())
}

/// The sentence by reads: all checks up to 16, then 21, then the reads one by one.
fn by_reads(stored: &Stored, run: Run, room: usize) -> Result<Vec<u8>, Refusal> {
    let read = |lbn| store::read(&stored.book, &stored.pool, run.volume, run.number, lbn);
    match read(0) {
        Ok(_) | Err(Refusal::Unmapped) => {}
        Err(refusal) => return Err(refusal),
    }
    let end = usize::from(run.first) + usize::from(run.length);
    let lbns = Book::over(&stored.book[..]).sizes().lbns;
    if end > usize::from(lbns) || room < 512 * usize::from(run.length) {
        return Err(Refusal::Run);
    }
    let mut blocks = Vec::new();
    for lbn in run.first..end as u16 {
        blocks.extend(read(lbn)?);
    }
    Ok(blocks)
}

/// The box after case d with another backup of volume 0, so that it has C, B, nothing and A.
fn with_a_hole() -> Stored {
    let mut stored = after_d();
    let answer = stored.call(&backup(0, 10, &[(3, "A")]));
    assert!(matches!(answer, Answer::BackedUp(_)));
    stored
}

#[test]
fn cases_c_to_g_restored() {
    let mut stored = after_d();
    assert_eq!(exactly(&stored, run(0, 1, 0, 2)), letters("AB"));
    assert_eq!(exactly(&stored, run(0, 2, 0, 2)), letters("CB"));
    assert_eq!(exactly(&stored, run(1, 1, 3, 1)), letters("A"));
    assert_eq!(exactly(&stored, run(1, 2, 3, 1)), letters("B"));
    assert_eq!(stored.call(&Call::Collect { day: 15 }), Answer::Freed(0));
    assert_eq!(exactly(&stored, run(0, 1, 0, 2)), letters("AB"));
    assert_eq!(exactly(&stored, run(1, 1, 3, 1)), Err(Refusal::NotKept));
    assert_eq!(stored.call(&Call::Collect { day: 18 }), Answer::Freed(1));
    assert_eq!(exactly(&stored, run(0, 1, 0, 2)), Err(Refusal::NotKept));
    assert_eq!(exactly(&stored, run(0, 2, 0, 2)), letters("CB"));
}

#[test]
fn no_block_is_asked_for() {
    let stored = after_d();
    for first in 0..=SIZES.lbns {
        for room in [0, 1, 600] {
            assert_eq!(restored(&stored, run(0, 1, first, 0), room), Ok(vec![]));
            assert_eq!(restored(&stored, run(1, 2, first, 0), room), Ok(vec![]));
        }
    }
    for first in [SIZES.lbns + 1, 65_535] {
        assert_eq!(exactly(&stored, run(0, 1, first, 0)), Err(Refusal::Run));
    }
    assert_eq!(exactly(&stored, run(2, 1, 0, 0)), Err(Refusal::Volume));
    assert_eq!(exactly(&stored, run(8, 1, 0, 0)), Err(Refusal::Volume));
    assert_eq!(exactly(&stored, run(0, 0, 0, 0)), Err(Refusal::Number));
    assert_eq!(exactly(&stored, run(0, 3, 0, 0)), Err(Refusal::Number));
    let mut later = stored.clone();
    Book::over(&mut later.book[..]).set_header(Header::Day, 13);
    assert_eq!(exactly(&later, run(1, 1, 0, 0)), Err(Refusal::NotKept));
}

#[test]
fn runs_past_the_end() {
    let stored = with_a_hole();
    assert_eq!(exactly(&stored, run(0, 3, 3, 1)), letters("A"));
    for (first, length) in [(3, 2), (4, 1), (0, 5), (5, 0), (2, 3)] {
        let run = run(0, 3, first, length);
        assert_eq!(exactly(&stored, run), Err(Refusal::Run), "{run:?}");
    }
}

#[test]
fn sums_do_not_wrap() {
    let stored = after_d();
    for (first, length) in [
        (65_535, 65_535),
        (65_535, 1),
        (65_534, 3),
        (1, 65_535),
        (0, 65_535),
        (65_535, 0),
    ] {
        let run = run(0, 1, first, length);
        assert_eq!(restored(&stored, run, 2_048), Err(Refusal::Run), "{run:?}");
    }
    // 512 times 128 and 512 times 129 are 0 and 512 in 16 bits.
    let sizes = Sizes {
        blocks: 1,
        lbns: 200,
        slots: 2,
        records: 400,
    };
    let mut stored = Stored::new(sizes, vec![0; 512]).unwrap();
    let enrol = Call::Enrol {
        volume: 0,
        retention: 1,
    };
    stored.call(&enrol);
    let row = &"E".repeat(50)[..];
    let rows = [(0, row), (50, row), (100, row), (150, row)];
    stored.call(&backup(0, 1, &rows));
    for length in [128, 129, 200] {
        let run = run(0, 1, 0, length);
        for room in [0, 511, 512, 1_024, run.bytes() - 1] {
            assert_eq!(restored(&stored, run, room), Err(Refusal::Run));
        }
        let whole = "E".repeat(length.into());
        assert_eq!(exactly(&stored, run), letters(&whole));
    }
}

#[test]
fn room_for_the_run() {
    let stored = after_d();
    for room in [0, 1, 2, 511, 512, 1_023] {
        let short = restored(&stored, run(0, 1, 0, 2), room);
        assert_eq!(short, Err(Refusal::Run), "{room}");
    }
    for room in [1_024, 1_025, 1_536, 5_000] {
        let long = restored(&stored, run(0, 1, 0, 2), room);
        assert_eq!(long, letters("AB"), "{room}");
    }
    assert_eq!(restored(&stored, run(0, 1, 1, 1), 1_024), letters("B"));
}

#[test]
fn the_first_unmapped_cell_refuses() {
    let stored = with_a_hole();
    let unmapped = Err(Refusal::Unmapped);
    // At the end, in the middle, at the start, alone.
    for (first, length) in [(0, 3), (1, 2), (0, 4), (1, 3), (2, 2), (2, 1)] {
        let run = run(0, 3, first, length);
        assert_eq!(restored(&stored, run, 3_000), unmapped, "{run:?}");
    }
    // By a record: backup 1 and 2 had nothing at LBN 3, which the current map has.
    assert_eq!(exactly(&stored, run(0, 2, 3, 1)), unmapped);
    assert_eq!(exactly(&stored, run(0, 3, 0, 2)), letters("CB"));
    assert_eq!(exactly(&stored, run(0, 3, 3, 1)), letters("A"));
}

#[test]
fn the_first_record_of_an_lbn_decides() {
    let stored = two_records_in_a_slot();
    assert_eq!(exactly(&stored, run(0, 1, 0, 2)), letters("AB"));
    assert_eq!(exactly(&stored, run(0, 2, 0, 2)), letters("DB"));
    let mut stored = after_d();
    for (day, letter) in [(10, "B"), (11, "C")] {
        stored.call(&backup(0, day, &[(0, letter)]));
    }
    for (number, text) in [(1, "AB"), (2, "CB"), (3, "BB"), (4, "CB")] {
        assert_eq!(exactly(&stored, run(0, number, 0, 2)), letters(text));
    }
}

/// A box with every fault from this one on, in the order of the checks.
fn faulty(from: usize) -> (Stored, Run, usize) {
    let mut stored = after_d();
    let mut book = Book::over(&mut stored.book[..]);
    book.set_header(Header::Day, 13);
    if from <= 1 {
        book.set_header(Header::Zero, 1);
    }
    if from == 0 {
        stored.book.push(0);
    }
    if from <= 2 {
        stored.pool.pop();
    }
    let volume = if from <= 3 { 2 } else { 1 };
    let number = match from {
        0..=4 => 3,
        5 => 1,
        _ => 2,
    };
    let length = if from <= 6 { 5 } else { 4 };
    (stored, run(volume, number, 0, length), 4 * 512)
}

#[test]
fn checks_in_order() {
    for (from, number) in [1, 2, 3, 5, 15, 16, 21, 18].into_iter().enumerate() {
        let (stored, run, room) = faulty(from);
        let refusal = restored(&stored, run, room).unwrap_err();
        assert_eq!(refusal.number(), number);
        // However senseless first and length are.
        if number < 18 {
            let senseless = Run {
                first: 65_535,
                length: 65_535,
                ..run
            };
            assert_eq!(restored(&stored, senseless, 0), Err(refusal));
        }
    }
    // 21 by the room alone comes before 18 too.
    let (stored, run, room) = faulty(7);
    assert_eq!(restored(&stored, run, room - 1), Err(Refusal::Run));
}

#[test]
fn only_the_length_of_the_pool_is_looked_at() {
    let mut stored = after_d();
    let labels = (0..4).flat_map(|pbn| [pbn; 512]);
    stored.pool = labels.collect();
    let blocks = exactly(&stored, run(0, 1, 0, 2)).unwrap();
    assert_eq!((blocks[0], blocks[512]), (0, 1));
    // A block that isn't held is given all the same.
    let mut book = Book::over(&mut stored.book[..]);
    book.set_cell(0, Lbn(2), Pbn(3));
    assert_eq!(exactly(&stored, run(0, 2, 2, 1)), Ok(vec![3; 512]));
}

#[test]
fn a_run_is_its_parts_one_after_the_other() {
    for stored in [after_d(), with_a_hole(), two_records_in_a_slot()] {
        for (a, b, c) in splits(SIZES.lbns) {
            let whole = exactly(&stored, run(0, 1, a, c - a));
            let left = exactly(&stored, run(0, 1, a, b - a));
            let right = exactly(&stored, run(0, 1, b, c - b));
            let both = left.and_then(|left| Ok([left, right?].concat()));
            assert_eq!(whole, both, "{a} {b} {c}");
        }
    }
}

/// All a ≤ b ≤ c up to the end.
fn splits(end: u16) -> Vec<(u16, u16, u16)> {
    let pairs = (0..=end).flat_map(move |a| (a..=end).map(move |b| (a, b)));
    let splits = pairs.flat_map(|(a, b)| (b..=end).map(move |c| (a, b, c)));
    splits.collect()
}

/// Over boxes that runs leave, and over damaged ones: each kind of answer comes.
#[test]
fn reads_one_by_one_say_the_same() {
    let mut came = [0; 22];
    for seed in 0..60 {
        let mut calls = RandomCalls::seeded(seed);
        let mut prng = Prng::seeded(seed);
        let mut stored = calls.run(60);
        for index in 0..100 {
            if index == 50 {
                disturb(&mut prng, &mut stored.book);
            }
            let run = calls.restore(&mut prng);
            let room = match prng.below(8) {
                0 => prng.index(run.bytes() + 1),
                1 => run.bytes() + 700,
                _ => run.bytes(),
            };
            let expected = by_reads(&stored, run, room);
            came[expected.as_ref().map_or_else(|r| r.number(), |_| 0) as usize] += 1;
            assert_eq!(restored(&stored, run, room), expected, "{seed}, {run:?}");
        }
    }
    for number in [0, 2, 5, 15, 16, 18, 21] {
        assert!(came[number] > 20, "{came:?}");
    }
}
