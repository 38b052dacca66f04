//! Formats of books that hold any bytes, with sizes in and out of range.

use std::ops::Range;

use reference::layout::Sizes;
use reference::prng::Prng;

use super::Job;
use crate::outcome::Outcome;
use crate::request::Request;

pub fn jobs(seeds: Range<u64>) -> Vec<Job> {
    let job = |seed| Job::new("formats", move |outcome| format(outcome, seed));
    seeds.map(job).collect()
}

fn size(prng: &mut Prng, end: u16) -> u16 {
    match prng.below(12) {
        0 => prng.pick(&[0, end + 1, 65_535]),
        _ => prng.spread(1, end),
    }
}

fn sizes(prng: &mut Prng) -> Sizes {
    let [blocks, lbns, slots, records] = match prng.below(20) {
        0 => [1, 1, 1, 1],
        1 => [4_096, 1_024, 1_024, 16_384],
        _ => [4_096, 1_024, 1_024, 16_384].map(|end| size(prng, end)),
    };
    Sizes {
        blocks,
        lbns,
        slots,
        records,
    }
}

fn format(outcome: &mut Outcome, seed: u64) {
    let mut prng = Prng::seeded(seed);
    let sizes = sizes(&mut prng);
    let length = sizes.book_bytes();
    let length = match prng.below(8) {
        0 => length - 1,
        1 => length + 1,
        2 => prng.index(length),
        _ => length,
    };
    let mut book = vec![0; length];
    prng.fill(&mut book);
    let label = || format!("format {seed}");
    let request = Request::Format { book: &book, sizes };
    outcome.compare(&mut prng, &label, request);
}
