//! Inputs that the fuzz targets start from; `fuzz/fuzz.h` says how an input is read.

use reference::call::Call;
use reference::cases;
use reference::layout::{Book, Pbn, FINGERPRINT_BYTES};
use reference::play::encode;
use reference::store::Run;

/// Longer books make slow inputs.
const BOOK_MAX: usize = 2_048;

/// The number of the shape with rows in several runs, among those of `reference_make`.
const PIECES: u8 = 5;

/// What is XORed with a call's numbers: volumes, days, retentions, numbers of backups, LBNs, lengths.
const NUMBERS: [[u16; 4]; 6] = [
    [0, 0, 0, 0],
    [0, 10, 0, 0],
    [19, 0, 0, 0],
    [0, 1, 0, 2],
    [1, 2, 3, 1],
    [2, 5_000, 0, 0],
];

/// The control at the start of an input, with no change of a length but one byte at hand.
fn control(calls: u8, shape: u8, seed: u16, disturbed: u8, numbers: [u16; 4]) -> Vec<u8> {
    let mut bytes = vec![calls, shape];
    bytes.extend(seed.to_le_bytes());
    bytes.extend([disturbed, 0]);
    bytes.extend(numbers.iter().flat_map(|number| number.to_le_bytes()));
    bytes.extend(
        [1i16, -1, 1, -1]
            .iter()
            .flat_map(|longer| longer.to_le_bytes()),
    );
    bytes
}

/// Each input with a name.
pub fn all() -> Vec<(String, Vec<u8>)> {
    let mut seeds = Vec::new();
    let vectors = crate::all().into_iter();
    let short = vectors.filter(|vector| vector.book.len() <= BOOK_MAX);
    for (index, vector) in short.enumerate() {
        let numbers = NUMBERS[index % NUMBERS.len()];
        seeds.push((vector.name, given(&vector.book, numbers)));
    }
    for (index, numbers) in NUMBERS.into_iter().enumerate() {
        let book = cases::after_d().book;
        seeds.push((format!("after-d-{index}"), given(&book, numbers)));
    }
    for shape in 0..6 {
        for (calls, disturbed) in [(1, 0), (2, 0), (3, 0), (1, 1), (2, 3)] {
            let name = format!("made-{shape}-{calls}-{disturbed}");
            let seed = u16::from(3 * shape + calls);
            seeds.push((name, control(calls, shape, seed, disturbed, [0; 4])));
        }
    }
    // Among their next backups are some with a run of 64 blocks, and some with a longer one.
    for seed in 0..16 {
        let input = control(1, PIECES, seed, 0, [0; 4]);
        seeds.push((format!("pieces-{seed}"), input));
    }
    for length in [63, 64, 65, 66, 128, 129] {
        seeds.push((
            format!("marks-{length}"),
            marks(&[&[0], &vec![1; length], &[0]], 1),
        ));
    }
    seeds.push(("marks-1024".into(), marks(&[&[1; 128]], 8)));
    seeds.extend(lists());
    seeds.extend(outputs());
    seeds.extend(alike());
    seeds
}

/// Lists of calls, as they are and to be mended.
fn lists() -> Vec<(String, Vec<u8>)> {
    let mut seeds = Vec::new();
    for calls in 0..3 {
        for mended in 0..2 {
            let mut input = control(calls, calls, 0, 0, [mended, 0, 0, 0]);
            input.extend(list(calls == 0));
            seeds.push((format!("list-{calls}-{mended}"), input));
        }
    }
    seeds
}

/// Outputs of the converters, a byte short and a byte longer.
fn outputs() -> Vec<(String, Vec<u8>)> {
    let mut seeds = Vec::new();
    for asked in 0..2 {
        for longer in [-1, 1] {
            let name = format!("output-{asked}-{longer}");
            seeds.push((name, output(asked, longer)));
        }
    }
    seeds
}

/// The book after case d, in the layout that the first number asks for, and so much more room.
fn output(asked: u16, longer: i16) -> Vec<u8> {
    const SPARE: usize = 2;
    let mut input = given(&cases::after_d().book, [asked, 0, 0, 0]);
    input[5] = 1 << SPARE;
    input[14 + 2 * SPARE..][..2].copy_from_slice(&longer.to_le_bytes());
    input
}

/// Books that hold a fingerprint which differs from the change's in one byte, each of them.
fn alike() -> Vec<(String, Vec<u8>)> {
    let mut seeds = Vec::new();
    for place in 0..FINGERPRINT_BYTES {
        let mut book = cases::after_d().book;
        Book::over(&mut book[..]).edit_entry(Pbn(0), |entry| {
            entry.fingerprint = cases::fingerprint('X');
            entry.fingerprint[place] ^= 1;
        });
        seeds.push((format!("alike-{place}"), given(&book, [0, 10, 0, 0])));
    }
    seeds
}

/// A list of calls with every kind of answer: the cases to g on a fresh book, or calls that boxes of
/// runs take.
fn list(fresh: bool) -> Vec<u8> {
    let read = |number| Call::Read {
        volume: 0,
        number,
        lbn: 0,
    };
    let mut calls = match fresh {
        true => cases::calls_to_d(),
        false => vec![
            cases::backup(0, 60_000, &[]),
            cases::backup(0, 60_000, &[(0, "X")]),
        ],
    };
    let day = if fresh { 19 } else { 60_000 };
    let restore = |first, length| {
        Call::Restore(Run {
            volume: 0,
            number: 1,
            first,
            length,
        })
    };
    calls.extend([
        read(1),
        read(2),
        restore(0, 2),
        restore(1, 3),
        restore(1, 4),
        Call::Collect { day },
        read(1),
        Call::Retire { volume: 1, day },
        Call::Retire { volume: 1, day },
        Call::Audit,
    ]);
    encode(&calls)
}

/// These marks one after the other for the writer, and all of it so many times.
fn marks(rows: &[&[u8]], times: u8) -> Vec<u8> {
    let mut input = control(times - 1, 0, 0, 0, [0; 4]);
    input.extend(rows.concat());
    input
}

/// A book as it is, and a list of one change.
fn given(book: &[u8], numbers: [u16; 4]) -> Vec<u8> {
    let mut input = control(0, 0, 0, 0, numbers);
    input.extend(book);
    input.extend(cases::list(&[(0, "X")]));
    input
}
