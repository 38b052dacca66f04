//! The parts of the comparison, each a list of jobs that need nothing of each other.

mod alike;
mod books;
mod converts;
mod counts;
mod days;
mod faults;
mod formats;
mod lengths;
mod play;
mod restores;
mod retires;
mod runs;
mod tested;
mod upgrades;
mod views;
mod writer;

use reference::random_calls::Shape;

use crate::outcome::Outcome;

type Work = dyn Fn(&mut Outcome) + Send + Sync;

pub struct Job {
    part: &'static str,
    work: Box<Work>,
}

impl Job {
    fn new(part: &'static str, work: impl Fn(&mut Outcome) + Send + Sync + 'static) -> Self {
        let work = Box::new(work);
        Job { part, work }
    }

    pub fn run(&self, outcome: &mut Outcome) {
        outcome.within(self.part, &self.work);
    }
}

/// The parts of `make check`, mixed so that each shows up early.
pub fn check() -> Vec<Job> {
    let mut quick = Vec::new();
    let mut lists = play::jobs(Shape::LongLists, 0..6);
    lists.extend(play::jobs(Shape::Pieces, 0..10));
    for seed in 0..100 {
        for shape in Shape::QUICK {
            quick.extend(runs::jobs(shape, seed..seed + 1));
        }
    }
    let mut upgraded = upgrades::jobs(Shape::AnySizes, 0..10);
    for seed in 0..30 {
        for shape in Shape::QUICK {
            upgraded.extend(upgrades::jobs(shape, seed..seed + 1));
        }
    }
    for seed in 0..40 {
        for shape in Shape::QUICK {
            lists.extend(play::jobs(shape, seed..seed + 1));
        }
    }
    let parts = [
        quick,
        lists,
        play::broken(),
        runs::jobs(Shape::Pieces, 0..30),
        runs::jobs(Shape::AnySizes, 0..40),
        runs::jobs(Shape::LongLists, 0..12),
        runs::jobs(Shape::Largest, 0..4),
        upgraded,
        upgrades::jobs(Shape::Largest, 0..1),
        formats::jobs(0..2_000),
        writer::jobs(0..10_000),
        books::vectors(),
        books::pairs(),
        lengths::jobs(),
        faults::jobs(),
    ];
    let soon = [counts::jobs(), days::jobs(), alike::jobs(), retires::jobs()];
    mixed(parts.into(), soon.into_iter().flatten().collect())
}

/// Where jobs of a few calls stand: some runs come before them.
const SOON: f64 = 0.02;

/// Puts the jobs in order of their place in their part, counted from 0 to 1: a part of many jobs
/// starts before one of few.
fn mixed(parts: Vec<Vec<Job>>, soon: Vec<Job>) -> Vec<Job> {
    let mut placed = Vec::new();
    for part in parts {
        let step = 1.0 / (part.len() + 1) as f64;
        let jobs = part.into_iter().zip(1..);
        placed.extend(jobs.map(|(job, place)| (step * f64::from(place), job)));
    }
    placed.extend(soon.into_iter().map(|job| (SOON, job)));
    placed.sort_by(|(one, _), (other, _)| one.total_cmp(other));
    placed.into_iter().map(|(_, job)| job).collect()
}

/// Jobs that go on without end after those of the check, with other seeds.
pub fn more(index: u64) -> Vec<Job> {
    const FROM: u64 = 1 << 32;
    let seeds = FROM + index..FROM + index + 1;
    let many = 20 * seeds.start..20 * seeds.end;
    let quick = Shape::QUICK[(index % Shape::QUICK.len() as u64) as usize];
    match index % 100 {
        0 => runs::jobs(Shape::Largest, seeds),
        1..=3 => runs::jobs(Shape::LongLists, seeds),
        4..=13 => runs::jobs(Shape::AnySizes, seeds),
        14..=23 => writer::jobs(many),
        24..=25 => formats::jobs(many),
        26 => play::jobs(Shape::LongLists, seeds),
        27..=35 => play::jobs(quick, seeds),
        36..=41 => runs::jobs(Shape::Pieces, seeds),
        42 => play::jobs(Shape::Pieces, seeds),
        43..=49 => upgrades::jobs(quick, seeds),
        50..=51 => alike::runs(seeds),
        _ => runs::jobs(quick, seeds),
    }
}
