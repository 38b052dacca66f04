//! Lists of calls in bytes: on fresh books in step with the plain store, on damaged ones with other
//! lengths of the buffers, and bytes that are no list.

use std::ops::Range;

use reference::agreement;
use reference::call::{Answer, Call, Stored};
use reference::cases;
use reference::history::History;
use reference::layout::Sizes;
use reference::plain::Plain;
use reference::play::{answer_bytes, decode, encode, longest_answers, HEAD_BYTES};
use reference::prng::Prng;
use reference::random_calls::{RandomCalls, Shape};
use reference::store::Run;

use super::runs::disturbed;
use super::tested::Tested;
use super::Job;
use crate::outcome::Outcome;
use crate::request::{Playing, Request};
use crate::seen::{equal, Seen};

const PART: &str = "lists of calls in bytes";

type Label<'a> = &'a dyn Fn() -> String;

/// Random lists.
pub fn jobs(shape: Shape, seeds: Range<u64>) -> Vec<Job> {
    let job = |seed| Job::new(PART, move |outcome| send_random(outcome, shape, seed));
    seeds.map(job).collect()
}

/// Lists on the box after case d that are broken in every way, and with any room.
pub fn broken() -> Vec<Job> {
    let works = [
        send_cut,
        send_heads,
        send_data,
        send_rooms,
        send_wrapping,
        send_whole_volume,
    ];
    works.map(|work| Job::new(PART, work)).into()
}

/// With so much room.
pub fn send(
    outcome: &mut Outcome,
    prng: &mut Prng,
    label: Label,
    (stored, calls): (&Stored, &[u8]),
    room: usize,
) -> Option<Seen> {
    let mut answers = vec![0; room];
    prng.fill(&mut answers);
    let playing = &Playing {
        stored,
        calls,
        answers,
    };
    outcome.compare(prng, label, Request::Play(playing))
}

/// How much room a list needs; some for bytes that are none.
pub fn room_for(calls: &[u8]) -> usize {
    decode(calls).map_or(600, |calls| longest_answers(&calls))
}

/// With just the room, with too little and with more.
fn send_any(
    outcome: &mut Outcome,
    prng: &mut Prng,
    label: Label,
    (stored, calls): (&Stored, &[u8]),
) {
    let exact = room_for(calls);
    let room = match prng.below(8) {
        0 => 0,
        1 => exact.saturating_sub(1),
        2 => prng.index(exact + 1),
        3 => exact + 1,
        4 => exact + prng.index(600),
        _ => exact,
    };
    send(outcome, prng, label, (stored, calls), room);
}

fn send_random(outcome: &mut Outcome, shape: Shape, seed: u64) {
    let mut prng = Prng::seeded(seed);
    let mut run = RandomCalls::shaped(shape, seed);
    let pool = run.first_pool();
    let label = || format!("list {shape:?} {seed}");
    let fresh = Tested::format(outcome, &mut prng, &label, run.sizes(), pool);
    let Some(Tested(fresh)) = fresh else { return };
    let number = match shape {
        Shape::LongLists => 16,
        _ => prng.pick(&[1, 2, shape.calls() / 3, shape.calls()]),
    };
    let calls = calls_of(&mut run, &fresh, number, seed);
    send_plain(outcome, &mut prng, &label, &fresh, (&calls, run.sizes()));
    send_parts(outcome, &mut prng, &label, &fresh, &calls);
    send_spoiled(outcome, &mut prng, &label, &fresh, encode(&calls));
}

/// The run's calls, which go by what the second implementation answers; restores among them have a
/// generator of their own.
fn calls_of(run: &mut RandomCalls, fresh: &Stored, number: usize, seed: u64) -> Vec<Call> {
    let mut stored = fresh.clone();
    let mut drawn = Prng::seeded(!seed);
    let mut calls = Vec::new();
    for _ in 0..number {
        if drawn.once_in(3) {
            calls.push(Call::Restore(run.restore(&mut drawn)));
        }
        let call = run.next_call();
        let answer = stored.call(&call);
        run.learn(&call, &answer);
        calls.push(call);
    }
    calls
}

/// The whole list on a fresh book: answers, held blocks and maps are the plain store's, and what is
/// read or restored is what the volumes sent.
fn send_plain(
    outcome: &mut Outcome,
    prng: &mut Prng,
    label: Label,
    fresh: &Stored,
    (calls, sizes): (&[Call], Sizes),
) {
    let label = || format!("{}, plain store", label());
    let room = longest_answers(calls) + prng.pick(&[0, 1, 300]);
    let Some(seen) = send(outcome, prng, &label, (fresh, &encode(calls)), room) else {
        return;
    };
    let mut plain = Plain::new(sizes);
    let answers: Vec<Answer> = calls.iter().map(|call| plain.call(call)).collect();
    let bytes: Vec<u8> = answers.iter().flat_map(answer_bytes).collect();
    let written = seen.answers[0].1.map_or(0, |written| written as usize);
    let told = seen.content(4).get(..written).unwrap_or(&[]);
    outcome.check(&label, equal("the answers", told, &bytes[..]));
    // A history takes the answers for right, so it comes after them.
    let past = past_answers(calls, &answers, sizes);
    outcome.check(&label, equal("what was sent", told, &past[..]));
    let agrees = agreement::check(seen.content(0), seen.content(1), &plain);
    outcome.check(&label, agrees);
}

/// The answers with those of reads and restores from the history.
fn past_answers(calls: &[Call], answers: &[Answer], sizes: Sizes) -> Vec<u8> {
    let mut history = History::new(sizes.lbns);
    let mut past = Vec::new();
    for (call, answer) in calls.iter().zip(answers) {
        let of_past = history.answer(call);
        past.extend(answer_bytes(of_past.as_ref().unwrap_or(answer)));
        history.note(call, answer);
    }
    past
}

/// The rest of the list on what its beginning left, as it is and disturbed.
fn send_parts(
    outcome: &mut Outcome,
    prng: &mut Prng,
    label: Label,
    fresh: &Stored,
    calls: &[Call],
) {
    let (begin, rest) = calls.split_at(prng.index(calls.len() + 1));
    let mut stored = fresh.clone();
    for call in begin {
        stored.call(call);
    }
    let rest = encode(rest);
    let label = || format!("{}, from call {}", label(), begin.len());
    send_any(outcome, prng, &label, (&stored, &rest));
    for _ in 0..3 {
        let stored = &disturbed(prng, &stored);
        let label = || format!("{}, disturbed", label());
        send_any(outcome, prng, &label, (stored, &rest));
    }
}

/// The list with a byte changed, cut off, or with bytes after its end.
fn send_spoiled(
    outcome: &mut Outcome,
    prng: &mut Prng,
    label: Label,
    fresh: &Stored,
    calls: Vec<u8>,
) {
    let label = || format!("{}, spoiled", label());
    for _ in 0..3 {
        let mut calls = calls.clone();
        match prng.below(4) {
            0 => calls.truncate(prng.index(calls.len())),
            1 => calls.extend(vec![0; 1 + prng.index(HEAD_BYTES)]),
            // The first head.
            2 => calls[prng.index(HEAD_BYTES)] = prng.pick(&[0, 1, 4, 5, 6, 7, 255]),
            _ => {
                let at = prng.index(calls.len());
                calls[at] ^= 1 << prng.below(8);
            }
        }
        send_any(outcome, prng, &label, (fresh, &calls));
    }
}

/// One call of each kind, as the box after case d takes them.
fn one_of_each() -> Vec<Call> {
    vec![
        Call::Enrol {
            volume: 2,
            retention: 5,
        },
        cases::backup(0, 10, &[(2, "D")]),
        Call::Collect { day: 12 },
        Call::Read {
            volume: 0,
            number: 1,
            lbn: 0,
        },
        Call::Audit,
        restore(0, 2),
        Call::Retire { volume: 0, day: 13 },
    ]
}

fn restore(first: u16, length: u16) -> Call {
    Call::Restore(Run {
        volume: 0,
        number: 1,
        first,
        length,
    })
}

/// Cut off at every place.
fn send_cut(outcome: &mut Outcome) {
    let mut prng = Prng::seeded(0);
    let stored = &cases::after_d();
    let whole = encode(&one_of_each());
    for length in 0..=whole.len() {
        let label = || format!("list cut off at {length}");
        let calls = &whole[..length];
        send(
            outcome,
            &mut prng,
            &label,
            (stored, calls),
            room_for(&whole),
        );
    }
}

/// Each byte of each head changed.
fn send_heads(outcome: &mut Outcome) {
    let mut prng = Prng::seeded(0);
    let stored = &cases::after_d();
    let calls = one_of_each();
    let whole = encode(&calls);
    for number in 0..calls.len() {
        let place = encode(&calls[..number]).len();
        for at in place..place + HEAD_BYTES {
            for value in [0, 1, 2, 3, 4, 5, 6, 7, 128, 255] {
                let mut calls = whole.clone();
                calls[at] = value;
                let label = || format!("list with {value} at {at}");
                for room in [0, room_for(&calls)] {
                    send(outcome, &mut prng, &label, (stored, &calls), room);
                }
            }
        }
    }
}

/// Data of any length said and given, after each head, before another call and at the end.
fn send_data(outcome: &mut Outcome) {
    let mut prng = Prng::seeded(0);
    let stored = &cases::after_d();
    for call in one_of_each() {
        let head = &encode(&[call])[..HEAD_BYTES];
        for given in [0, 1, 2, HEAD_BYTES, 534, 65_536] {
            for said in lengths(given as u32) {
                let mut calls = head.to_vec();
                calls[10..].copy_from_slice(&said.to_le_bytes());
                calls.extend(vec![0; given]);
                let label = || format!("list with {given} bytes of data for {said}");
                send_any(outcome, &mut prng, &label, (stored, &calls));
                let calls = [encode(&one_of_each()), calls, encode(&[Call::Audit])].concat();
                send_any(outcome, &mut prng, &label, (stored, &calls));
            }
        }
    }
}

/// Lengths beside the right one, ends of ranges, and those that wrap with a head or two.
fn lengths(right: u32) -> Vec<u32> {
    let near = [right.saturating_sub(1), right, right + 1, right + 14];
    let ends = [0, 255, 256, 65_535, 65_536, 1 << 24, 1 << 31, u32::MAX];
    let wraps = [1, 2, 13, 14, 15, 28, 600].map(|less| u32::MAX - less);
    near.into_iter().chain(ends).chain(wraps).collect()
}

/// Each beginning of the list with every room around the longest answers.
fn send_rooms(outcome: &mut Outcome) {
    let mut prng = Prng::seeded(0);
    let stored = &cases::after_d();
    let calls = one_of_each();
    for number in 0..=calls.len() {
        let calls = &calls[..number];
        let exact = longest_answers(calls);
        let near = exact.saturating_sub(520)..exact + 20;
        for room in near.chain([0, 1, 2, 3, exact + 1_000]) {
            let label = || format!("list of {number} calls with room for {room}");
            send(outcome, &mut prng, &label, (stored, &encode(calls)), room);
        }
    }
}

/// A volume of 1,024 blocks, backed up and restored in one list.
fn send_whole_volume(outcome: &mut Outcome) {
    let mut prng = Prng::seeded(0);
    let label = || "list with a whole volume".to_string();
    let sizes = Sizes {
        blocks: 16,
        lbns: 1_024,
        slots: 1,
        records: 1_024,
    };
    let pool = vec![0; sizes.pool_bytes()];
    let Some(Tested(fresh)) = Tested::format(outcome, &mut prng, &label, sizes, pool) else {
        return;
    };
    let rows: Vec<(u16, String)> = ('A'..='P')
        .map(|letter| letter.to_string().repeat(64))
        .enumerate()
        .map(|(index, row)| (64 * index as u16, row))
        .collect();
    let rows: Vec<(u16, &str)> = rows.iter().map(|(at, row)| (*at, &row[..])).collect();
    let enrol = Call::Enrol {
        volume: 0,
        retention: 1,
    };
    let calls = [enrol, cases::backup(0, 1, &rows), restore(0, 1_024)];
    send_plain(outcome, &mut prng, &label, &fresh, (&calls, sizes));
}

/// Restores whose longest answers are 390 bytes above what four bytes can tell, with little room.
fn send_wrapping(outcome: &mut Outcome) {
    let mut prng = Prng::seeded(0);
    let stored = &cases::after_d();
    let mut calls = vec![restore(0, 65_535); 128];
    calls.extend([restore(0, 127), restore(0, 1)]);
    for room in [389, 390, 1_000, 20_000] {
        let label = || format!("list whose answers wrap, with room for {room}");
        send(outcome, &mut prng, &label, (stored, &encode(&calls)), room);
    }
}
