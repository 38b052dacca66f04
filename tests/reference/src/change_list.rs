//! The change list: the box's reader (refusal 8) and the aid's writer (refusals 19, 20).

use crate::layout::{
    get_u16, put_u16, Block, Fingerprint, Lbn, BLOCK_BYTES, FINGERPRINT_BYTES, LBNS_RANGE,
};
use crate::refusal::{require, Refusal};

/// The most blocks that the cradle radio sends in one run.
pub const RUN_MAX: u16 = 64;

const COUNT_BYTES: usize = 2;
const PAIR_BYTES: usize = 4;

/// A list that was read: the changed LBNs in order, and the bytes they lie in.
pub struct ChangeList<'a> {
    lbns: Vec<Lbn>,
    fingerprints: &'a [u8],
    blocks: &'a [u8],
}

/// One changed block, its parts lent from the list.
#[derive(Clone, Copy)]
pub struct Change<'a> {
    pub lbn: Lbn,
    pub fingerprint: &'a Fingerprint,
    pub block: &'a Block,
}

/// How many bytes a list of this many pairs and changes has.
pub fn list_bytes(pairs: usize, changes: usize) -> usize {
    COUNT_BYTES + PAIR_BYTES * pairs + (FINGERPRINT_BYTES + BLOCK_BYTES) * changes
}

/// How many bytes the longest list has that `write` makes for this many LBNs: that of all of them.
pub fn list_bound(lbns: usize) -> usize {
    list_bytes(lbns.div_ceil(usize::from(RUN_MAX)), lbns)
}

/// Reads a list for volumes of `lbns_max` logical blocks; refusal 8 if it isn't one.
pub fn read(bytes: &[u8], lbns_max: u16) -> Result<ChangeList<'_>, Refusal> {
    require(bytes.len() >= COUNT_BYTES, Refusal::List)?;
    let pairs = usize::from(get_u16(bytes, 0));
    require(bytes.len() >= list_bytes(pairs, 0), Refusal::List)?;
    let mut lbns = Vec::new();
    let mut last_end = 0;
    for pair in 0..pairs {
        let at = COUNT_BYTES + PAIR_BYTES * pair;
        let (first, length) = (get_u16(bytes, at), get_u16(bytes, at + 2));
        require((1..=RUN_MAX).contains(&length), Refusal::List)?;
        let first = u32::from(first);
        let end = first + u32::from(length);
        let holds = end <= u32::from(lbns_max) && first >= last_end;
        require(holds, Refusal::List)?;
        lbns.extend((first..end).map(|lbn| Lbn(lbn as u16)));
        last_end = end;
    }
    require(bytes.len() == list_bytes(pairs, lbns.len()), Refusal::List)?;
    let fingerprints_at = list_bytes(pairs, 0);
    let blocks_at = fingerprints_at + FINGERPRINT_BYTES * lbns.len();
    Ok(ChangeList {
        lbns,
        fingerprints: &bytes[fingerprints_at..blocks_at],
        blocks: &bytes[blocks_at..],
    })
}

impl<'a> ChangeList<'a> {
    pub fn number(&self) -> usize {
        self.lbns.len()
    }

    /// Change `index`, from 0.
    pub fn change(&self, index: usize) -> Change<'a> {
        Change {
            lbn: self.lbns[index],
            fingerprint: &self.fingerprints.as_chunks().0[index],
            block: &self.blocks.as_chunks().0[index],
        }
    }

    pub fn changes(&self) -> impl Iterator<Item = Change<'a>> + '_ {
        (0..self.number()).map(|index| self.change(index))
    }
}

/// Writes the list of the marked blocks, their longest runs in pieces, and answers its length in
/// bytes.
pub fn write(
    lbns: u16,
    marks: &[u8],
    fingerprints: &[u8],
    image: &[u8],
    output: &mut [u8],
) -> Result<u32, Refusal> {
    let number = usize::from(lbns);
    let input_holds = LBNS_RANGE.contains(&lbns)
        && marks.len() == number
        && marks.iter().all(|&mark| mark <= 1)
        && fingerprints.len() == FINGERPRINT_BYTES * number
        && image.len() == BLOCK_BYTES * number;
    require(input_holds, Refusal::Input)?;
    let list = marked_blocks(marks, fingerprints, image);
    require(output.len() >= list.len(), Refusal::ShortOutput)?;
    output[..list.len()].copy_from_slice(&list);
    Ok(list.len() as u32)
}

fn marked_blocks(marks: &[u8], fingerprints: &[u8], image: &[u8]) -> Vec<u8> {
    let runs: Vec<Run> = longest_runs(marks).into_iter().flat_map(pieces).collect();
    let mut list = vec![0; list_bytes(runs.len(), 0)];
    put_u16(&mut list, 0, runs.len() as u16);
    for (pair, &(first, length)) in runs.iter().enumerate() {
        put_u16(&mut list, COUNT_BYTES + PAIR_BYTES * pair, first as u16);
        put_u16(
            &mut list,
            COUNT_BYTES + PAIR_BYTES * pair + 2,
            length as u16,
        );
    }
    for (section, part) in [(fingerprints, FINGERPRINT_BYTES), (image, BLOCK_BYTES)] {
        for &(first, length) in &runs {
            list.extend_from_slice(&section[part * first..part * (first + length)]);
        }
    }
    list
}

/// Marked blocks in a row: the first and how many.
type Run = (usize, usize);

/// Each run of ones that no one stands beside.
fn longest_runs(marks: &[u8]) -> Vec<Run> {
    let mut runs: Vec<Run> = Vec::new();
    for (lbn, _) in marks.iter().enumerate().filter(|(_, &mark)| mark == 1) {
        match runs.last_mut() {
            Some((first, length)) if *first + *length == lbn => *length += 1,
            _ => runs.push((lbn, 1)),
        }
    }
    runs
}

/// Cuts a longest run from its start into pieces of the most blocks that a run has; the rest is
/// last.
fn pieces((first, length): Run) -> Vec<Run> {
    let (end, most) = (first + length, usize::from(RUN_MAX));
    let starts = (first..end).step_by(most);
    starts.map(|start| (start, most.min(end - start))).collect()
}
