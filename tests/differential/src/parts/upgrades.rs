//! Boxes that runs under the rule of layout 2 left: their books are converted at any time, and from
//! the middle of the run it goes on with the converted one, in step with a plain store that kept by
//! that rule up to then.

use std::ops::Range;

use reference::history::History;
use reference::keeping;
use reference::layout::{Book, Header};
use reference::layout_2::{self, OldBox};
use reference::plain::Plain;
use reference::prng::Prng;
use reference::random_books::disturb;
use reference::random_calls::{RandomCalls, Shape};

use super::runs::Course;
use super::tested::Tested;
use super::{converts, Job};
use crate::outcome::Outcome;
use crate::seen::equal;

const PART: &str = "upgrades of runs in layout 2";

type Label<'a> = &'a dyn Fn() -> String;

pub fn jobs(shape: Shape, seeds: Range<u64>) -> Vec<Job> {
    let job = |seed| Job::new(PART, move |outcome| send(outcome, shape, seed));
    seeds.map(job).collect()
}

fn send(outcome: &mut Outcome, shape: Shape, seed: u64) {
    let label = || format!("upgrade {shape:?} {seed}");
    let old_calls = shape.calls() / 2;
    let Some(mut course) = upgraded(outcome, &label, shape, (seed, old_calls)) else {
        return;
    };
    for index in old_calls..shape.calls() {
        let label = || format!("{}, call {index}", label());
        let last = index + 1 == shape.calls();
        if course.step(outcome, &label, last).is_none() {
            return;
        }
    }
}

/// A run of so many calls by the old rule, with conversions on its way, and converted.
fn upgraded(
    outcome: &mut Outcome,
    label: Label,
    shape: Shape,
    (seed, number): (u64, usize),
) -> Option<Course> {
    let mut prng = Prng::seeded(seed);
    let mut calls = RandomCalls::shaped(shape, seed);
    let sizes = calls.sizes();
    let mut old = OldBox::new(sizes, calls.first_pool());
    let (mut plain, mut history) = (Plain::new(sizes), History::new(sizes.lbns));
    plain.keep_by(layout_2::is_kept);
    for index in 0..number {
        let call = calls.next_call();
        if let Some(answer) = old.call(&call) {
            let agrees = equal("an old answer", plain.call(&call), answer.clone());
            outcome.check(label, agrees);
            calls.learn(&call, &answer);
            history.note(&call, &answer);
        }
        if prng.once_in(6) {
            let label = || format!("{}, after call {index}", label());
            send_old(outcome, &mut prng, &label, old.stored().book);
        }
    }
    plain.keep_by(keeping::is_kept);
    let mut stored = old.stored();
    stored.book = converts::send_exactly(outcome, &mut prng, label, &stored.book)?;
    let [drawn, converted] = [!seed, seed ^ 0xC0].map(Prng::seeded);
    Some(Course {
        calls,
        tested: Tested(stored),
        plain,
        history,
        prng,
        drawn,
        converted,
    })
}

/// A book of layout 2 as it is and disturbed, and the same under the number of today's layout, which
/// audit takes for what it says it is.
fn send_old(outcome: &mut Outcome, prng: &mut Prng, label: Label, book: Vec<u8>) {
    let sound = layout_2::faults(2, &book);
    outcome.check(label, equal("the old faults", sound, Ok(Vec::new())));
    converts::send_afresh(outcome, prng, label, &book);
    let mut disturbed = book.clone();
    disturb(prng, &mut disturbed);
    let damaged = || format!("{}, disturbed", label());
    converts::send_afresh(outcome, prng, &damaged, &disturbed);
    let mut said_3 = book;
    Book::over(&mut said_3[..]).set_header(Header::Layout, 3);
    let label = || format!("{}, not converted", label());
    converts::send_audit(outcome, prng, &label, said_3);
}
