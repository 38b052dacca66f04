//! Books that seeded runs of calls leave, as they are and disturbed; and some that runs under the
//! rule of layout 2 left, which the converters take.

use reference::layout_2::OldBox;
use reference::prng::Prng;
use reference::random_books::disturb;
use reference::random_calls::RandomCalls;

use crate::vector::{Meant, Vector};

const RUNS: u64 = 30;
const OLD_RUNS: u64 = 12;
const CALLS: usize = 100;
const DISTURBED: usize = 4;

pub fn vectors() -> Vec<Vector> {
    let old = (0..OLD_RUNS).map(|seed| {
        let old = OldBox::run(&mut RandomCalls::seeded(seed), CALLS);
        Vector::new(
            format!("run-{seed}-in-layout-2"),
            old.stored().book,
            Meant::Refused1,
        )
    });
    (0..RUNS).flat_map(run).chain(old).collect()
}

fn run(seed: u64) -> Vec<Vector> {
    let stored = RandomCalls::seeded(seed).run(CALLS);
    let mut prng = Prng::seeded(seed);
    let mut vectors = Vec::new();
    for number in 0..DISTURBED {
        let mut book = stored.book.clone();
        disturb(&mut prng, &mut book);
        let name = format!("run-{seed}-disturbed-{number}");
        vectors.push(Vector::new(name, book, Meant::Either));
    }
    vectors.push(Vector::new(
        format!("run-{seed}"),
        stored.book,
        Meant::Totals,
    ));
    vectors
}
