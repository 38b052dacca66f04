//! Seeded runs of calls on one fresh book, in step with the plain store. Every second call goes
//! to a disturbed copy as well.

use std::ops::Range;

use reference::agreement;
use reference::call::{Answer, Call, Stored};
use reference::history::History;
use reference::layout::{UNMAPPED, VOLUMES};
use reference::plain::Plain;
use reference::prng::Prng;
use reference::random_books::disturb;
use reference::random_calls::{RandomCalls, Shape};
use reference::store::Run;
use reference::view::View;

use super::tested::Tested;
use super::{converts, restores, retires, views, Job};
use crate::outcome::Outcome;
use crate::request::Request;
use crate::seen::{equal, Seen};

/// All volumes, and one that there isn't.
const ALL_VOLUMES: &[u16] = &[0, 1, 2, 3, 4, 5, 6, 7, 8];

/// The numbers that no call gives on a book that calls have made.
const DAMAGE: [u16; 4] = [1, 2, 13, 14];

pub fn jobs(shape: Shape, seeds: Range<u64>) -> Vec<Job> {
    let part = match shape {
        Shape::Small => "runs, small",
        Shape::Sharing => "runs, rich sharing",
        Shape::TinyPool => "runs, tiny pools",
        Shape::FewSlots => "runs, few slots",
        Shape::ShortJournal => "runs, short journals",
        Shape::WideCounts => "runs, counts above 255",
        Shape::Pieces => "runs, rows in several runs of a list",
        Shape::AnySizes => "runs, any sizes",
        Shape::LongLists => "runs, long lists",
        Shape::Largest => "runs, largest sizes",
    };
    let job = |seed| Job::new(part, move |outcome| run(outcome, shape, seed));
    seeds.map(job).collect()
}

fn run(outcome: &mut Outcome, shape: Shape, seed: u64) {
    let mut prng = Prng::seeded(seed);
    let mut calls = RandomCalls::shaped(shape, seed);
    let (sizes, pool) = (calls.sizes(), calls.first_pool());
    let label = || format!("run {shape:?} {seed}");
    let tested = Tested::format(outcome, &mut prng, &label, sizes, pool);
    let Some(tested) = tested else { return };
    // Restores and converters have generators of their own, and the calls go on as they would.
    let [drawn, converted] = [!seed, seed ^ 0xC0].map(Prng::seeded);
    let mut course = Course {
        calls,
        tested,
        plain: Plain::new(sizes),
        history: History::new(sizes.lbns),
        prng,
        drawn,
        converted,
    };
    for index in 0..shape.calls() {
        let label = || format!("run {shape:?} {seed}, call {index}");
        let last = index + 1 == shape.calls();
        if course.step(outcome, &label, last).is_none() {
            return;
        }
    }
}

/// A run on its way, with all that it is in step with.
pub struct Course {
    pub calls: RandomCalls,
    pub tested: Tested,
    pub plain: Plain,
    pub history: History,
    pub prng: Prng,
    /// Draws the restores.
    pub drawn: Prng,
    /// Draws the conversions.
    pub converted: Prng,
}

impl Course {
    /// The next call with all that comes beside it. Nothing if the archive wrote where it may not.
    pub fn step(
        &mut self,
        outcome: &mut Outcome,
        label: &dyn Fn() -> String,
        last: bool,
    ) -> Option<()> {
        let call = self.calls.next_call();
        self.send_beside(outcome, label, &call);
        let seen = self.tested.call(outcome, &mut self.prng, label, &call)?;
        let answer = self.plain.call(&call);
        let label = || format!("{}, plain store", label());
        let (prng, stored) = (&mut self.prng, &self.tested.0);
        outcome.check(&label, answers_agree(&answer, &seen, &stored.pool));
        let volumes = match answer {
            _ if last => ALL_VOLUMES,
            Answer::Freed(_) | Answer::Retired(_) => &[prng.pick(ALL_VOLUMES)],
            _ => &[],
        };
        send_plain(outcome, prng, &label, (stored, &self.plain), volumes);
        self.calls.learn(&call, &answer);
        self.history.note(&call, &answer);
        Some(())
    }

    /// What changes nothing, on the box as it is and on damaged copies; the call on one of those too.
    fn send_beside(&mut self, outcome: &mut Outcome, label: &dyn Fn() -> String, call: &Call) {
        let (prng, drawn, stored) = (&mut self.prng, &mut self.drawn, &self.tested.0);
        let view = self.calls.view(prng);
        let run = self.calls.restore(drawn);
        views::send_any(outcome, prng, label, &stored.book, view);
        restores::send_past(outcome, drawn, label, (stored, run), &self.history);
        converts::send_any(outcome, &mut self.converted, label, &stored.book);
        if prng.once_in(2) {
            send_disturbed(outcome, prng, label, stored, (call, view));
            send_run_disturbed(outcome, drawn, label, (stored, run));
            retires::send_disturbed(outcome, drawn, label, (stored, &self.calls));
        }
    }
}

/// The box has what the plain store has, and so it is counted and shown, with these volumes. Without
/// volumes nothing is looked at.
fn send_plain(
    outcome: &mut Outcome,
    prng: &mut Prng,
    label: &dyn Fn() -> String,
    (stored, plain): (&Stored, &Plain),
    volumes: &[u16],
) {
    if volumes.is_empty() {
        return;
    }
    let Stored { book, pool, .. } = stored;
    outcome.check(label, agreement::check(book, pool, plain));
    send_count(outcome, prng, label, book, plain);
    views::send_plain(outcome, prng, label, (book, plain), volumes);
}

/// Counts as many held blocks as the plain store has, and a reference for each of its cells that
/// names a block.
fn send_count(
    outcome: &mut Outcome,
    prng: &mut Prng,
    label: &dyn Fn() -> String,
    book: &[u8],
    plain: &Plain,
) {
    let Some(seen) = outcome.compare(prng, label, Request::Count { book }) else {
        return;
    };
    let cells = (0..VOLUMES).flat_map(|volume| plain.current_map(volume));
    let named = cells.filter(|&pbn| pbn != UNMAPPED).count() as u32;
    for (index, expected) in [(1, plain.held().count() as u32), (3, named)] {
        let (name, answer) = seen.answers[index];
        outcome.check(label, equal(name, answer, Some(expected)));
    }
}

/// The archive answered as the plain store did, and by no number of damage.
pub fn answers_agree(answer: &Answer, seen: &Seen, pool: &[u8]) -> Result<(), String> {
    let number = match answer {
        Answer::Refused(refusal) => refusal.number(),
        _ => 0,
    };
    equal("the number", seen.number, number)?;
    let damaged = DAMAGE.contains(&seen.number);
    equal("a number of damage", damaged, false)?;
    let expected = match answer {
        Answer::Refused(_) | Answer::Enrolled => return Ok(()),
        Answer::BackedUp(b) => vec![b.number, b.taken, b.touched],
        Answer::Freed(number) | Answer::Retired(number) => vec![*number],
        Answer::Sound(sound) => vec![u16::from(*sound)],
        Answer::Block(block) => {
            let at = seen.answer(0) as usize;
            return equal("the block read", &pool[at..at + 512], &block[..]);
        }
        Answer::Run(_) => unreachable!("restores go by the history"),
    };
    for (index, expected) in expected.into_iter().enumerate() {
        let (name, _) = seen.answers[index];
        equal(name, seen.answer(index), expected.into())?;
    }
    Ok(())
}

fn send_disturbed(
    outcome: &mut Outcome,
    prng: &mut Prng,
    label: &dyn Fn() -> String,
    stored: &Stored,
    (call, view): (&Call, View),
) {
    let stored = &disturbed(prng, stored);
    let label = || format!("{}, disturbed", label());
    for call in [call, &Call::Audit] {
        outcome.compare(prng, &label, Request::Call { stored, call });
    }
    let book = &stored.book;
    outcome.compare(prng, &label, Request::Form { book });
    outcome.compare(prng, &label, Request::Count { book });
    views::send_any(outcome, prng, &label, book, view);
}

fn send_run_disturbed(
    outcome: &mut Outcome,
    prng: &mut Prng,
    label: &dyn Fn() -> String,
    (stored, run): (&Stored, Run),
) {
    let stored = &disturbed(prng, stored);
    let label = || format!("{}, disturbed", label());
    restores::send_any(outcome, prng, &label, (stored, run));
}

/// A copy with another book, and now and then other lengths of the buffers.
pub fn disturbed(prng: &mut Prng, stored: &Stored) -> Stored {
    let mut disturbed = stored.clone();
    disturb(prng, &mut disturbed.book);
    if prng.once_in(10) {
        resize(prng, &mut disturbed.book);
    }
    if prng.once_in(8) {
        resize(prng, &mut disturbed.pool);
    }
    if prng.once_in(5) {
        resize(prng, &mut disturbed.spare);
    }
    disturbed
}

fn resize(prng: &mut Prng, buffer: &mut Vec<u8>) {
    let length = buffer.len();
    let lengths = [prng.index(length), length - 1, length + 1, length + 9];
    buffer.resize(prng.pick(&lengths), 7);
}
