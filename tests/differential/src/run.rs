//! Runs the jobs: in threads, in one up to the first difference, or for as long as it takes.

use std::process::ExitCode;
use std::sync::atomic::{AtomicU64, Ordering};
use std::thread;
use std::time::Instant;

use crate::outcome::{At, Outcome};
use crate::parts;

fn threads() -> usize {
    thread::available_parallelism().map_or(1, usize::from)
}

pub fn check() -> ExitCode {
    let jobs = parts::check();
    let next = AtomicU64::new(0);
    let outcome = in_threads(|outcome| {
        let index = next.fetch_add(1, Ordering::Relaxed) as usize;
        let job = jobs.get(index);
        job.inspect(|job| job.run(outcome)).is_some()
    });
    outcome.report()
}

pub fn first() -> ExitCode {
    let mut outcome = Outcome::new(At::TheFirst);
    for job in parts::check() {
        job.run(&mut outcome);
    }
    println!("no difference in {} calls", outcome.calls());
    ExitCode::SUCCESS
}

/// Lets each thread take steps until it answers that there are none left.
fn in_threads(step: impl Fn(&mut Outcome) -> bool + Sync) -> Outcome {
    let mut all = Outcome::new(At::EachDifference);
    thread::scope(|scope| {
        let work = || {
            let mut outcome = Outcome::new(At::EachDifference);
            while step(&mut outcome) {}
            outcome
        };
        let workers: Vec<_> = (0..threads()).map(|_| scope.spawn(work)).collect();
        for worker in workers {
            all.merge(&worker.join().expect("a worker's outcome"));
        }
    });
    all
}

/// All of the check and more, until so many calls are made.
pub fn soak(calls: u64) -> ExitCode {
    let jobs = parts::check();
    let (next, done) = (AtomicU64::new(0), AtomicU64::new(0));
    let clock = Clock::start(calls);
    let outcome = in_threads(|outcome| {
        let index = next.fetch_add(1, Ordering::Relaxed);
        let before = outcome.calls();
        match jobs.get(index as usize) {
            Some(job) => job.run(outcome),
            None => {
                let more = parts::more(index - jobs.len() as u64);
                more.iter().for_each(|job| job.run(outcome));
            }
        }
        let made = outcome.calls() - before;
        let done = done.fetch_add(made, Ordering::Relaxed) + made;
        clock.tick(done);
        done < calls
    });
    clock.say(outcome.calls());
    outcome.report()
}

/// Shows the progress of a soak on standard error.
struct Clock {
    calls: u64,
    began: Instant,
    /// The second of the last line.
    said: AtomicU64,
}

/// Seconds between lines of progress.
const INTERVAL: u64 = 5;

impl Clock {
    fn start(calls: u64) -> Self {
        Clock {
            calls,
            began: Instant::now(),
            said: AtomicU64::new(0),
        }
    }

    /// A line if the last one was long ago; of several threads one says it.
    fn tick(&self, done: u64) {
        let (last, now) = (
            self.said.load(Ordering::Relaxed),
            self.began.elapsed().as_secs(),
        );
        if now < last + INTERVAL {
            return;
        }
        let mine = self
            .said
            .compare_exchange(last, now, Ordering::Relaxed, Ordering::Relaxed);
        if mine.is_ok() {
            self.say(done);
        }
    }

    fn say(&self, done: u64) {
        let time = self.began.elapsed();
        let rate = done as f64 / time.as_secs_f64().max(0.001);
        let left = self.calls.saturating_sub(done) as f64 / rate.max(1.0);
        eprintln!(
            "soak: {done} of {} calls, {} s, {rate:.0} calls a second, {left:.0} s left",
            self.calls,
            time.as_secs()
        );
    }
}
