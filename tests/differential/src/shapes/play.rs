//! Shapes of lists of calls in bytes.

use reference::call::{Call, Stored};
use reference::play::{self, data_bytes, HEAD_BYTES};

use super::Shape;
use crate::request::{call_name, Playing};
use crate::seen::Seen;

const CUT: &str = "a head cut off, alone";
const SECOND: &str = "a second byte that isn't zero, alone";
const UNKNOWN: &str = "an unknown kind, alone";
const EARLY: &str = "data that ends early, alone";

/// What a call mustn't have: the kind, a field's place in the head, and the shape's name.
const UNUSED: [(u8, usize, &str); 20] = [
    (0, 6, "an enrol with c, alone"),
    (0, 8, "an enrol with d, alone"),
    (0, 10, "an enrol with data, alone"),
    (1, 6, "a backup with c, alone"),
    (1, 8, "a backup with d, alone"),
    (2, 4, "a collect with b, alone"),
    (2, 6, "a collect with c, alone"),
    (2, 8, "a collect with d, alone"),
    (2, 10, "a collect with data, alone"),
    (3, 8, "a read with d, alone"),
    (3, 10, "a read with data, alone"),
    (4, 2, "an audit with a, alone"),
    (4, 4, "an audit with b, alone"),
    (4, 6, "an audit with c, alone"),
    (4, 8, "an audit with d, alone"),
    (4, 10, "an audit with data, alone"),
    (5, 10, "a restore with data, alone"),
    (6, 6, "a retirement with c, alone"),
    (6, 8, "a retirement with d, alone"),
    (6, 10, "a retirement with data, alone"),
];

/// From the first call that is none to the end.
fn broken(calls: &[u8]) -> &[u8] {
    let mut rest = calls;
    while let Ok((_, after)) = play::split_call(rest) {
        rest = after;
    }
    rest
}

/// What is wrong with the call that starts here.
fn faults(rest: &[u8]) -> Vec<&'static str> {
    let Some((head, data)) = rest.split_at_checked(HEAD_BYTES) else {
        return vec![CUT];
    };
    let is_set = |at: usize| match at {
        10 => head[10..] != [0; 4],
        _ => head[at..at + 2] != [0; 2],
    };
    let unused = UNUSED.iter();
    let unused = unused.filter(|(kind, at, _)| head[0] == *kind && is_set(*at));
    let mut faults: Vec<&str> = unused.map(|(_, _, name)| *name).collect();
    let others = [
        (SECOND, head[1] != 0),
        (UNKNOWN, head[0] > 6),
        (EARLY, data_bytes(head) > data.len()),
    ];
    faults.extend(others.into_iter().filter(|(_, has)| *has).map(|(n, _)| n));
    faults
}

/// Of bytes that are no list.
pub fn refused(playing: &Playing) -> Vec<Shape> {
    let rest = broken(playing.calls);
    let faults = faults(rest);
    let length = rest.get(..HEAD_BYTES).map(data_bytes);
    let early = |is: &dyn Fn(usize) -> bool| faults == [EARLY] && length.is_some_and(is);
    let given = rest.len().saturating_sub(HEAD_BYTES);
    let names = UNUSED.iter().map(|(_, _, name)| *name);
    let names = names.chain([CUT, SECOND, UNKNOWN, EARLY]);
    let mut shapes: Vec<Shape> = names.map(|name| (name, faults == [name])).collect();
    shapes.extend([
        ("several faults in a head", faults.len() > 1),
        ("one byte of a head", rest.len() == 1),
        ("one byte short of a head", rest.len() == HEAD_BYTES - 1),
        ("data one byte short", early(&|length| length == given + 1)),
        (
            "data whose end wraps in four bytes",
            early(&|length| length + HEAD_BYTES > u32::MAX as usize),
        ),
        ("the first call is none", rest.len() == playing.calls.len()),
        ("a later call is none", rest.len() < playing.calls.len()),
        ("no list, and no room", playing.answers.is_empty()),
    ]);
    shapes
}

/// Of the room that a list was given.
pub fn room(playing: &Playing, number: u16) -> [Shape; 8] {
    let calls = play::decode(playing.calls).expect("a list of calls");
    let (room, longest) = (playing.answers.len(), play::longest_answers(&calls));
    let (short, accepted) = (number == 20, number == 0);
    [
        ("no room", short && room == 0),
        ("room one byte short", short && room + 1 == longest),
        ("room of just the longest", accepted && room == longest),
        ("room one byte longer", accepted && room == longest + 1),
        ("much more room", accepted && room > longest + 100),
        (
            "no room for the longest, though the answers would fit",
            short && would_fit(playing, longest),
        ),
        (
            "room for what four bytes have of the longest",
            short && longest > u32::MAX as usize && longest % (1 << 32) <= room,
        ),
        ("no calls and no room", accepted && room == 0),
    ]
}

/// Whether the answers are no longer than their room.
fn would_fit(playing: &Playing, longest: usize) -> bool {
    // Answers of such a length aren't made here.
    if longest > 1 << 28 {
        return false;
    }
    let Stored {
        mut book,
        mut pool,
        mut spare,
    } = playing.stored.clone();
    let mut answers = vec![0; longest];
    let (calls, room) = (playing.calls, playing.answers.len());
    let written = play::play(&mut book, &mut pool, &mut spare, calls, &mut answers);
    written.is_ok_and(|written| written as usize <= room)
}

/// The calls of a list that was played, each with the bytes of its answer.
fn answered(playing: &Playing, seen: &Seen) -> Vec<(Call, Vec<u8>)> {
    let calls = play::decode(playing.calls).expect("a list of calls");
    let mut answers = seen.content(4);
    let mut next = |call| {
        let length = match answers[0] {
            1 => 7,
            3 => 513,
            5 => 3 + 512 * usize::from(u16::from_le_bytes([answers[1], answers[2]])),
            _ => 3,
        };
        let (answer, rest) = answers.split_at(length);
        answers = rest;
        (call, answer.to_vec())
    };
    calls.into_iter().map(&mut next).collect()
}

/// The number of refusal in an answer.
fn refusal(answer: &[u8]) -> u16 {
    match answer[0] {
        0 => u16::from_le_bytes([answer[1], answer[2]]),
        _ => 0,
    }
}

/// The calls of a list by name, each with the number that it gave; none of a refused list.
pub fn numbers(playing: &Playing, seen: &Seen) -> Vec<(&'static str, u16)> {
    if seen.number != 0 {
        return Vec::new();
    }
    let answered = answered(playing, seen).into_iter();
    let number = |(call, answer): (Call, Vec<u8>)| (call_name(&call), refusal(&answer));
    answered.map(number).collect()
}

/// Of a list that was played.
pub fn played(playing: &Playing, seen: &Seen) -> [Shape; 17] {
    let answered = answered(playing, seen);
    let refused = |answer: &[u8]| refusal(answer) != 0;
    let first_refused = answered.iter().position(|(_, answer)| refused(answer));
    let last_accepted = answered.iter().rposition(|(_, answer)| !refused(answer));
    let goes_on = first_refused.is_some() && last_accepted > first_refused;
    let any = |is: fn(&[u8]) -> bool| answered.iter().any(|(_, answer)| is(answer));
    let data = |is: fn(usize) -> bool| {
        let is_so = |call: &Call| matches!(call, Call::Backup { list, .. } if is(list.len()));
        answered.iter().any(|(call, _)| is_so(call))
    };
    let written = seen.answer(0) as usize;
    [
        ("no calls", answered.is_empty()),
        ("one call", answered.len() == 1),
        ("over 100 calls", answered.len() > 100),
        ("a refused call, and later an accepted one", goes_on),
        (
            "several calls, all refused",
            answered.len() > 1 && last_accepted.is_none(),
        ),
        (
            "answers that fill their room",
            written == seen.content(4).len(),
        ),
        ("a backup that took blocks", any(|a| a[0] == 1 && a[3] > 0)),
        ("a number above 255", any(|a| a[0] == 1 && a[6] > 0)),
        ("a block", any(|a| a[0] == 3)),
        ("a run of no block", any(|a| a[..] == [5, 0, 0])),
        ("a run of one block", any(|a| a[..3] == [5, 1, 0])),
        ("a run of some blocks", any(|a| a[0] == 5 && a[1] > 1)),
        ("a run above 255 blocks", any(|a| a[0] == 5 && a[2] > 0)),
        ("an audit's yes", any(|a| a[..] == [4, 1, 0])),
        ("an audit's no", any(|a| a[..] == [4, 0, 0])),
        ("a backup without data", data(|length| length == 0)),
        ("data above 65,535 bytes", data(|length| length > 65_535)),
    ]
}

/// Of the collections and retirements in it, whose answers have one number.
pub fn told(playing: &Playing, seen: &Seen) -> [Shape; 4] {
    let answered = answered(playing, seen);
    let any = |name: &str, is: fn(&[u8]) -> bool| {
        let mut of_name = answered.iter().filter(|(call, _)| call_name(call) == name);
        of_name.any(|(_, answer)| is(answer))
    };
    let some = |a: &[u8]| a[0] == 2 && a[1..] != [0, 0];
    let none = |a: &[u8]| a == [2, 0, 0];
    [
        ("a collection that freed", any("collect", some)),
        ("a retirement of cells", any("retire", some)),
        ("a retirement without cells", any("retire", none)),
        (
            "a retirement refused by 5",
            any("retire", |answer| refusal(answer) == 5),
        ),
    ]
}
