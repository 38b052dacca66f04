//! Lists of calls as bytes, which are played as a whole: a strict reader, the calls one after the
//! other, and their answers as bytes.

use crate::call::{call_on, Answer, Call};
use crate::layout::{get_u16, BLOCK_BYTES};
use crate::refusal::{require, Refusal};
use crate::store::Run;

pub const HEAD_BYTES: usize = 14;

const ENROL: u8 = 0;
const BACKUP: u8 = 1;
const COLLECT: u8 = 2;
const READ: u8 = 3;
const AUDIT: u8 = 4;
const RESTORE: u8 = 5;
const RETIRE: u8 = 6;

/// The calls that the bytes are; refusal 19 if they are no list.
pub fn decode(bytes: &[u8]) -> Result<Vec<Call>, Refusal> {
    let mut calls = Vec::new();
    let mut rest = bytes;
    while !rest.is_empty() {
        let (call, after) = split_call(rest)?;
        calls.push(call);
        rest = after;
    }
    Ok(calls)
}

/// The first call, and the bytes after it.
pub fn split_call(bytes: &[u8]) -> Result<(Call, &[u8]), Refusal> {
    let (head, rest) = split(bytes, HEAD_BYTES)?;
    let (kind, zero) = (head[0], head[1]);
    let fields = [2, 4, 6, 8].map(|at| get_u16(head, at));
    let (data, rest) = split(rest, data_bytes(head))?;
    require(zero == 0, Refusal::Input)?;
    require(kind == BACKUP || data.is_empty(), Refusal::Input)?;
    let (call, used) = call_of(kind, fields, data).ok_or(Refusal::Input)?;
    let unused = &fields[used..];
    require(unused.iter().all(|&field| field == 0), Refusal::Input)?;
    Ok((call, rest))
}

fn split(bytes: &[u8], length: usize) -> Result<(&[u8], &[u8]), Refusal> {
    bytes.split_at_checked(length).ok_or(Refusal::Input)
}

/// How many bytes of data a head announces.
pub fn data_bytes(head: &[u8]) -> usize {
    usize::from(get_u16(head, 10)) + (usize::from(get_u16(head, 12)) << 16)
}

/// The call of a head and its data, and how many of the fields it uses.
fn call_of(kind: u8, [a, b, c, d]: [u16; 4], data: &[u8]) -> Option<(Call, usize)> {
    let (volume, list) = (a, data.to_vec());
    let call = match kind {
        ENROL => Call::Enrol {
            volume,
            retention: b,
        },
        BACKUP => Call::Backup {
            volume,
            day: b,
            list,
        },
        COLLECT => Call::Collect { day: a },
        READ => Call::Read {
            volume,
            number: b,
            lbn: c,
        },
        AUDIT => Call::Audit,
        RESTORE => Call::Restore(Run {
            volume,
            number: b,
            first: c,
            length: d,
        }),
        RETIRE => Call::Retire { volume, day: b },
        _ => return None,
    };
    let used = [2, 2, 1, 3, 0, 4, 2][usize::from(kind)];
    Some((call, used))
}

/// The bytes of a list of calls.
pub fn encode(calls: &[Call]) -> Vec<u8> {
    calls.iter().flat_map(call_bytes).collect()
}

fn call_bytes(call: &Call) -> Vec<u8> {
    let (kind, fields, data): (u8, [u16; 4], &[u8]) = match call {
        Call::Enrol { volume, retention } => (ENROL, [*volume, *retention, 0, 0], &[]),
        Call::Backup { volume, day, list } => (BACKUP, [*volume, *day, 0, 0], list),
        Call::Collect { day } => (COLLECT, [*day, 0, 0, 0], &[]),
        Call::Read {
            volume,
            number,
            lbn,
        } => (READ, [*volume, *number, *lbn, 0], &[]),
        Call::Audit => (AUDIT, [0; 4], &[]),
        Call::Restore(run) => (
            RESTORE,
            [run.volume, run.number, run.first, run.length],
            &[],
        ),
        Call::Retire { volume, day } => (RETIRE, [*volume, *day, 0, 0], &[]),
    };
    let mut bytes = vec![kind, 0];
    bytes.extend(fields.iter().flat_map(|field| field.to_le_bytes()));
    bytes.extend((data.len() as u32).to_le_bytes());
    bytes.extend(data);
    bytes
}

/// How many bytes the answers have at most.
pub fn longest_answers(calls: &[Call]) -> usize {
    calls.iter().map(longest_answer).sum()
}

fn longest_answer(call: &Call) -> usize {
    match call {
        Call::Enrol { .. } | Call::Collect { .. } | Call::Retire { .. } | Call::Audit => 3,
        Call::Backup { .. } => 7,
        Call::Read { .. } => 1 + BLOCK_BYTES,
        Call::Restore(run) => 3 + run.bytes(),
    }
}

/// A tag, and then numbers, a block, or a number of blocks and these.
pub fn answer_bytes(answer: &Answer) -> Vec<u8> {
    let tagged = |tag: u8, numbers: &[u16]| -> Vec<u8> {
        let numbers = numbers.iter().flat_map(|number| number.to_le_bytes());
        [tag].into_iter().chain(numbers).collect()
    };
    match answer {
        Answer::Enrolled => tagged(0, &[0]),
        Answer::Refused(refusal) => tagged(0, &[refusal.number()]),
        Answer::BackedUp(b) => tagged(1, &[b.number, b.taken, b.touched]),
        Answer::Freed(number) | Answer::Retired(number) => tagged(2, &[*number]),
        Answer::Block(block) => [&[3], &block[..]].concat(),
        Answer::Sound(sound) => tagged(4, &[u16::from(*sound)]),
        Answer::Run(blocks) => {
            let mut bytes = tagged(5, &[(blocks.len() / BLOCK_BYTES) as u16]);
            bytes.extend(blocks);
            bytes
        }
    }
}

/// Makes all calls of a list in order. Their answers go to the front of `answers`; the answer is
/// how many bytes they have.
pub fn play(
    book: &mut [u8],
    pool: &mut [u8],
    spare: &mut [u8],
    calls: &[u8],
    answers: &mut [u8],
) -> Result<u32, Refusal> {
    let calls = decode(calls)?;
    // What is written is told in four bytes.
    let room = answers.len().min(u32::MAX as usize);
    require(longest_answers(&calls) <= room, Refusal::ShortOutput)?;
    let mut told = Vec::new();
    for call in &calls {
        told.extend(answer_bytes(&call_on(book, pool, spare, call)));
    }
    for (place, byte) in answers.iter_mut().zip(&told) {
        *place = *byte;
    }
    Ok(told.len() as u32)
}
