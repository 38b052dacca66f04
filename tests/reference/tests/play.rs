//! Lists of calls as bytes: cases a to j, what is no list, and room for the longest answers.

use reference::call::{Call, Stored};
use reference::cases::{after_d, backup, block, calls_to_d, fingerprint, list_of, SIZES};
use reference::layout::{Book, Pbn};
use reference::plain::Plain;
use reference::play::{self, answer_bytes, decode, encode, longest_answers};
use reference::prng::Prng;
use reference::random_calls::RandomCalls;
use reference::refusal::Refusal;
use reference::store::{self, Run};

/// The byte of the answers before a list is played.
const FILL: u8 = 0xA5;

fn read(volume: u16, number: u16, lbn: u16) -> Call {
    Call::Read {
        volume,
        number,
        lbn,
    }
}

fn restore(volume: u16, number: u16, first: u16, length: u16) -> Call {
    Call::Restore(Run {
        volume,
        number,
        first,
        length,
    })
}

/// One call of each kind, as the box after case d takes them.
fn one_of_each() -> Vec<Call> {
    vec![
        Call::Enrol {
            volume: 2,
            retention: 5,
        },
        backup(0, 10, &[(2, "D")]),
        Call::Collect { day: 12 },
        read(0, 1, 0),
        Call::Audit,
        restore(0, 1, 0, 2),
        Call::Retire { volume: 0, day: 13 },
    ]
}

fn fresh() -> Stored {
    Stored::new(SIZES, vec![0x5A; SIZES.pool_bytes()]).unwrap()
}

/// Plays bytes with so much room; gives the answers, whose rest is as it was.
fn played(stored: &mut Stored, calls: &[u8], room: usize) -> Result<Vec<u8>, Refusal> {
    let mut answers = vec![FILL; room];
    let before = stored.clone();
    let Stored { book, pool, spare } = stored;
    let result = play::play(book, pool, spare, calls, &mut answers);
    let written = result.map_or(0, |written| written as usize);
    assert!(answers[written..].iter().all(|&byte| byte == FILL));
    if result.is_err() {
        assert_eq!((&stored.book, &stored.pool), (&before.book, &before.pool));
    }
    answers.truncate(written);
    result.map(|_| answers)
}

/// Cases a to j with a read before e and an audit at the end, each answer as bytes.
fn cases_a_to_j() -> (Vec<Call>, Vec<u8>) {
    let other_bytes = list_of(&[(0, 1)], &[(fingerprint('B'), block('F'))]);
    let mut calls = calls_to_d();
    calls.extend([
        read(0, 1, 0),
        Call::Collect { day: 18 },
        read(0, 1, 0),
        read(1, 1, 3),
        Call::Collect { day: 19 },
        read(0, 1, 0),
        backup(0, 20, &[(2, "DE")]),
        backup(1, 21, &[(0, "F")]),
        Call::Backup {
            volume: 1,
            day: 21,
            list: other_bytes,
        },
        Call::Audit,
    ]);
    let mut answers = vec![0, 0, 0, 0, 0, 0];
    for [number, taken, touched] in [[1, 2, 2], [1, 0, 1], [2, 1, 2], [2, 0, 2]] {
        answers.extend([1, number, 0, taken, 0, touched, 0]);
    }
    answers.push(3);
    answers.extend([b'A'; 512]);
    answers.extend([2, 1, 0]);
    answers.extend([0, 16, 0, 0, 16, 0]);
    answers.extend([2, 0, 0]);
    answers.extend([0, 16, 0]);
    answers.extend([1, 3, 0, 2, 0, 2, 0]);
    answers.extend([0, 12, 0, 0, 11, 0]);
    answers.extend([4, 1, 0]);
    (calls, answers)
}

#[test]
fn cases_a_to_j_as_a_list() {
    let (calls, expected) = cases_a_to_j();
    let bytes = encode(&calls);
    let room = 2 * 3 + 4 * 7 + 513 + 3 + 2 * 513 + 3 + 513 + 3 * 7 + 3;
    assert_eq!(longest_answers(&calls), room);
    for room in [room, room + 1, 2 * room] {
        let mut stored = fresh();
        assert_eq!(played(&mut stored, &bytes, room), Ok(expected.clone()));
        let mut one_by_one = fresh();
        for call in &calls {
            one_by_one.call(call);
        }
        assert_eq!(stored.book, one_by_one.book);
        assert_eq!(stored.pool, one_by_one.pool);
    }
}

#[test]
fn an_unsound_book_is_told_as_no() {
    let mut stored = after_d();
    Book::over(&mut stored.book[..]).edit_entry(Pbn(0), |entry| entry.count += 1);
    let answers = played(&mut stored, &encode(&[Call::Audit]), 3);
    assert_eq!(answers, Ok(vec![4, 0, 0]));
}

#[test]
fn a_head_byte_for_byte() {
    let bytes = encode(&[
        backup(0x0102, 0x0304, &[]),
        read(5, 6, 0x0708),
        restore(9, 10, 0x0B0C, 0x0D0E),
        Call::Retire {
            volume: 0x0F10,
            day: 0x1112,
        },
    ]);
    let heads = [
        [1, 0, 2, 1, 4, 3, 0, 0, 0, 0, 2, 0, 0, 0].to_vec(),
        vec![0, 0],
        [3, 0, 5, 0, 6, 0, 8, 7, 0, 0, 0, 0, 0, 0].to_vec(),
        [5, 0, 9, 0, 10, 0, 12, 11, 14, 13, 0, 0, 0, 0].to_vec(),
        [6, 0, 16, 15, 18, 17, 0, 0, 0, 0, 0, 0, 0, 0].to_vec(),
    ];
    assert_eq!(bytes, heads.concat());
}

#[test]
fn no_bytes_are_a_list_without_calls() {
    let mut stored = after_d();
    let before = stored.clone();
    assert_eq!(played(&mut stored, &[], 0), Ok(vec![]));
    assert_eq!(stored.book, before.book);
}

#[test]
fn answers_one_byte_short() {
    let calls = one_of_each();
    for number in 1..=calls.len() {
        let bytes = encode(&calls[..number]);
        let room = longest_answers(&calls[..number]);
        let short = played(&mut after_d(), &bytes, room - 1);
        assert_eq!(short, Err(Refusal::ShortOutput));
        assert!(played(&mut after_d(), &bytes, room).is_ok());
    }
    // A refused read has three bytes, and needs the room of a block.
    let refused = encode(&[read(9, 0, 0)]);
    let short = played(&mut after_d(), &refused, 512);
    assert_eq!(short, Err(Refusal::ShortOutput));
    assert_eq!(played(&mut after_d(), &refused, 513), Ok(vec![0, 5, 0]));
}

#[test]
fn restores_in_a_list() {
    let calls = [
        restore(0, 1, 0, 2),
        restore(0, 1, 4, 0),
        restore(0, 1, 5, 0),
        restore(0, 1, 1, 4),
        restore(0, 1, 1, 2),
        restore(2, 1, 65_535, 3),
    ];
    let longest = 3 + 1_024 + 3 + 3 + 3 + 2_048 + 3 + 1_024 + 3 + 1_536;
    assert_eq!(longest_answers(&calls), longest);
    let mut expected = vec![5, 2, 0];
    expected.extend([block('A'), block('B')].concat());
    expected.extend([5, 0, 0, 0, 21, 0, 0, 21, 0, 0, 18, 0, 0, 5, 0]);
    let bytes = encode(&calls);
    let mut stored = after_d();
    let before = stored.clone();
    assert_eq!(played(&mut stored, &bytes, longest), Ok(expected));
    assert_eq!((stored.book, stored.pool), (before.book, before.pool));
    let short = played(&mut after_d(), &bytes, longest - 1);
    assert_eq!(short, Err(Refusal::ShortOutput));
}

#[test]
fn retirements_in_a_list() {
    let retire = |volume, day| Call::Retire { volume, day };
    let calls = [
        retire(0, 8),
        retire(0, 10),
        retire(0, 11),
        retire(1, 11),
        retire(8, 11),
        Call::Audit,
    ];
    assert_eq!(longest_answers(&calls), 3 * calls.len());
    let expected = [
        [0, 7, 0],
        [2, 2, 0],
        [0, 5, 0],
        [2, 1, 0],
        [0, 5, 0],
        [4, 1, 0],
    ];
    let bytes = encode(&calls);
    let mut stored = after_d();
    assert_eq!(played(&mut stored, &bytes, 18), Ok(expected.concat()));
    let short = played(&mut after_d(), &bytes, 17);
    assert_eq!(short, Err(Refusal::ShortOutput));
}

/// A length may ask for any room, in the volume or not.
#[test]
fn the_room_of_restores_does_not_wrap() {
    let longest = 3 + 512 * 65_535;
    let call = encode(&[restore(0, 1, 0, 65_535)]);
    let short = played(&mut after_d(), &call, longest - 1);
    assert_eq!(short, Err(Refusal::ShortOutput));
    assert_eq!(played(&mut after_d(), &call, longest), Ok(vec![0, 21, 0]));
    // In all 390 bytes more than four bytes can tell.
    let mut calls = vec![restore(0, 1, 0, 65_535); 128];
    calls.extend([restore(0, 1, 0, 127), restore(0, 1, 0, 1)]);
    assert_eq!(longest_answers(&calls), (1 << 32) + 390);
    for room in [0, 390, 1_000] {
        let short = played(&mut after_d(), &encode(&calls), room);
        assert_eq!(short, Err(Refusal::ShortOutput));
    }
}

fn is_no_list(bytes: &[u8]) {
    for room in [0, 10_000] {
        let result = played(&mut after_d(), bytes, room);
        assert_eq!(result, Err(Refusal::Input), "{:?}", &bytes[..14]);
    }
}

#[test]
fn lists_that_end_early_are_none() {
    let calls = one_of_each();
    let bytes = encode(&calls);
    let ends: Vec<usize> = (0..=calls.len())
        .map(|number| encode(&calls[..number]).len())
        .collect();
    for end in 0..bytes.len() {
        let whole = ends.contains(&end);
        assert_eq!(decode(&bytes[..end]).is_ok(), whole, "{end}");
    }
    let mut longer = bytes.clone();
    longer.push(0);
    is_no_list(&longer);
}

/// The place of each call of `one_of_each`, and the fields of its head that it doesn't use.
fn unused_fields() -> Vec<(usize, Vec<usize>)> {
    let calls = one_of_each();
    let unused = [
        vec![6, 8],
        vec![6, 8],
        vec![4, 6, 8],
        vec![8],
        vec![2, 4, 6, 8],
        vec![],
        vec![6, 8],
    ];
    let places = (0..calls.len()).map(|number| encode(&calls[..number]).len());
    places.zip(unused).collect()
}

#[test]
fn what_a_kind_does_not_use_is_zero() {
    let bytes = encode(&one_of_each());
    for (place, unused) in unused_fields() {
        for at in unused.into_iter().flat_map(|field| [field, field + 1]) {
            let mut broken = bytes.clone();
            broken[place + at] = 1;
            is_no_list(&broken);
        }
        let mut broken = bytes.clone();
        broken[place + 1] = 1;
        is_no_list(&broken);
    }
}

#[test]
fn unknown_kinds_are_none() {
    for kind in 7..=255 {
        let mut bytes = encode(&[Call::Audit]);
        bytes[0] = kind;
        is_no_list(&bytes);
    }
}

#[test]
fn only_a_backup_has_data() {
    let is_backup = |call: &Call| matches!(call, Call::Backup { .. });
    for call in one_of_each().into_iter().filter(|call| !is_backup(call)) {
        let mut bytes = encode(&[call]);
        bytes[10] = 1;
        is_no_list(&bytes);
        bytes.push(0);
        is_no_list(&bytes);
    }
}

#[test]
fn lengths_of_data_do_not_wrap() {
    let list = encode(&[backup(0, 10, &[(2, "D")]), Call::Audit]);
    for length in [u32::MAX, u32::MAX - 13, 1 << 31, 1 << 16, 549, 533, 535] {
        let mut bytes = list.clone();
        bytes[10..14].copy_from_slice(&length.to_le_bytes());
        is_no_list(&bytes);
    }
}

#[test]
fn data_of_more_than_two_bytes_of_length() {
    let list = vec![7; 70_000];
    let call = Call::Backup {
        volume: 0,
        day: 10,
        list,
    };
    let bytes = encode(&[call, Call::Audit]);
    assert_eq!(bytes.len(), 70_000 + 28);
    assert_eq!(decode(&bytes).map(|calls| calls.len()), Ok(2));
    let answers = played(&mut after_d(), &bytes, 10);
    assert_eq!(answers, Ok(vec![0, 8, 0, 4, 1, 0]));
}

/// As many calls of a run as the box of the second implementation learns from.
fn random_list(seed: u64) -> (Stored, Vec<Call>) {
    let mut run = RandomCalls::seeded(seed);
    let pool = run.first_pool();
    let stored = Stored::new(run.sizes(), pool).unwrap();
    let mut shown = stored.clone();
    let mut prng = Prng::seeded(seed);
    let mut next = || {
        let call = match prng.once_in(3) {
            true => Call::Restore(run.restore(&mut prng)),
            false => run.next_call(),
        };
        let answer = shown.call(&call);
        run.learn(&call, &answer);
        call
    };
    let calls = (0..60).map(|_| next()).collect();
    (stored, calls)
}

#[test]
fn random_lists_are_answered_by_the_plain_store() {
    for seed in 0..60 {
        let (mut stored, calls) = random_list(seed);
        let mut plain = Plain::new(store::sizes(&stored.book).unwrap());
        let expected: Vec<u8> = calls
            .iter()
            .flat_map(|call| answer_bytes(&plain.call(call)))
            .collect();
        let room = longest_answers(&calls);
        let answers = played(&mut stored, &encode(&calls), room);
        assert_eq!(answers, Ok(expected), "list {seed}");
        assert_eq!(encode(&decode(&encode(&calls)).unwrap()), encode(&calls));
    }
}
