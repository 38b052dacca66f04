//! Random change lists over a moving choice of blocks, some with other bytes than before,
//! some broken.

use crate::cases::list_of;
use crate::change_list::RUN_MAX;
use crate::layout::{Block, Fingerprint, BLOCK_BYTES, FINGERPRINT_BYTES};
use crate::prng::Prng;

/// The fingerprint that a letter's blocks are sent with; letter 0 has the zero one.
pub fn letter_fingerprint(letter: u16) -> Fingerprint {
    let [low, high] = letter.to_le_bytes();
    let mut fingerprint = [0; FINGERPRINT_BYTES];
    match letter % 3 {
        0 => fingerprint.fill(low),
        1 => fingerprint[0] = low,
        _ => fingerprint[FINGERPRINT_BYTES - 1] = low,
    }
    fingerprint[8] ^= high;
    fingerprint
}

pub fn letter_block(letter: u16) -> Block {
    let [low, high] = letter.to_le_bytes();
    let mut block = [low; BLOCK_BYTES];
    block[300] ^= high;
    block
}

/// First LBN and length.
type Run = (u16, u16);

pub struct RandomLists {
    pub lbns: u16,
    /// The letters in use: this many from `first_letter` up, which moves on with time.
    pub letters: u16,
    pub first_letter: u16,
    /// The longest row of changed LBNs; the list has it in runs that touch.
    pub row_max: u16,
    /// How often a list has zero blocks only.
    pub zeros_once_in: u64,
    /// How often a list has all LBNs.
    pub whole_once_in: u64,
}

impl RandomLists {
    pub fn next_list(&mut self, prng: &mut Prng) -> Vec<u8> {
        let mut pairs = self.pairs(prng);
        if prng.once_in(30) {
            self.spoil_pairs(prng, &mut pairs);
        }
        let mut list = self.list(prng, &pairs);
        if prng.once_in(30) {
            self.spoil(prng, &mut list);
        }
        list
    }

    /// The rows in runs, as the writer cuts them or anywhere. Now and then a run has more blocks
    /// than the reader takes: one more, or all of its row.
    fn pairs(&mut self, prng: &mut Prng) -> Vec<Run> {
        let rows = self.rows(prng);
        let (most, anywhere) = match prng.below(12) {
            0 => (self.lbns, false),
            1 => (RUN_MAX + 1, false),
            2..=5 => (RUN_MAX, true),
            _ => (RUN_MAX, false),
        };
        let mut pairs = Vec::new();
        for (first, length) in rows {
            let (mut start, end) = (first, first + length);
            while start < end {
                let longest = most.min(end - start);
                let shortest = if anywhere { 1 } else { longest };
                let length = prng.between(shortest, longest);
                pairs.push((start, length));
                start += length;
            }
        }
        pairs
    }

    /// Changed LBNs, in rows that may touch.
    fn rows(&mut self, prng: &mut Prng) -> Vec<Run> {
        if prng.once_in(self.whole_once_in) {
            return match prng.once_in(2) {
                true => vec![(0, self.lbns)],
                false => (0..self.lbns).map(|lbn| (lbn, 1)).collect(),
            };
        }
        let mut rows = Vec::new();
        let mut end = 0;
        loop {
            let first = end + prng.between(0, self.lbns / 2);
            let length = prng.between(1, self.row_max);
            if first + length > self.lbns {
                return rows;
            }
            rows.push((first, length));
            end = first + length;
        }
    }

    fn list(&mut self, prng: &mut Prng, pairs: &[Run]) -> Vec<u8> {
        let number: u16 = pairs.iter().map(|(_, length)| length).sum();
        let zeros = prng.once_in(self.zeros_once_in);
        let mut changes: Vec<_> = (0..number)
            .map(|_| if zeros { 0 } else { self.letter(prng) })
            .map(|letter| (letter_fingerprint(letter), letter_block(letter)))
            .collect();
        if number > 0 && prng.once_in(40) {
            let change = prng.index(changes.len());
            changes[change].1[prng.pick(&[0, 255, 511])] ^= 1;
        }
        list_of(pairs, &changes)
    }

    fn letter(&mut self, prng: &mut Prng) -> u16 {
        if prng.once_in(20) {
            self.first_letter = (self.first_letter + 1) % 60_000;
        }
        self.first_letter + prng.between(0, self.letters - 1)
    }

    /// Breaks one of the pairs; the fingerprints and blocks will be as many as they say.
    fn spoil_pairs(&self, prng: &mut Prng, pairs: &mut Vec<Run>) {
        if pairs.is_empty() {
            pairs.push((self.lbns - 1, 1));
        }
        let index = prng.index(pairs.len());
        let (first, length) = &mut pairs[index];
        match prng.below(4) {
            0 => *length = 0,
            1 => *length = self.lbns + 1 - *first,
            2 => *first = first.saturating_sub(1),
            _ => *length += 1,
        }
    }

    /// Breaks the bytes in one of the ways that refusal 8 names.
    fn spoil(&mut self, prng: &mut Prng, list: &mut Vec<u8>) {
        let field = match prng.below(6) {
            0 => return list.truncate(prng.index(list.len())),
            1 => return list.push(0),
            2 => 0,
            _ => 2 * prng.index(list.len().min(12) / 2),
        };
        let value = prng.pick(&[0, 1, self.lbns, 65_535]);
        list[field..field + 2].copy_from_slice(&value.to_le_bytes());
    }
}
