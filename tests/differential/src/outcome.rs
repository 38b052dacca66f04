//! How many calls were compared, what those came upon, and the differences.

use std::collections::BTreeMap;
use std::process::{exit, ExitCode};

use reference::prng::Prng;

use crate::coverage::Coverage;
use crate::interface::{ARCHIVE, REFERENCE};
use crate::request::Request;
use crate::seen::{self, Seen};

/// Differences printed in full; the others are only counted.
const PRINTED: u64 = 10;

/// The exit status of a difference.
pub const DIFFERENT: i32 = 1;

#[derive(Clone, Copy, PartialEq, Eq)]
pub enum At {
    EachDifference,
    /// Leaves the program there.
    TheFirst,
}

pub struct Outcome {
    report: At,
    calls: u64,
    failed: u64,
    /// The calls of each part.
    parts: BTreeMap<&'static str, u64>,
    coverage: Coverage,
}

impl Outcome {
    pub fn new(report: At) -> Self {
        Outcome {
            report,
            calls: 0,
            failed: 0,
            parts: BTreeMap::new(),
            coverage: Coverage::new(),
        }
    }

    pub fn calls(&self) -> u64 {
        self.calls
    }

    /// Does work of a part.
    pub fn within(&mut self, part: &'static str, work: &dyn Fn(&mut Self)) {
        let before = self.calls;
        work(self);
        *self.parts.entry(part).or_default() += self.calls - before;
    }

    /// Sends the request to both sides, and gives what the archive made of it; nothing if the
    /// archive wrote where it may not.
    pub fn compare(
        &mut self,
        prng: &mut Prng,
        label: &dyn Fn() -> String,
        request: Request,
    ) -> Option<Seen> {
        self.calls += 1;
        let name = request.name();
        let label = || format!("{}, {name}", label());
        let archive = request.send(prng, &ARCHIVE);
        let reference = request.send(prng, &REFERENCE);
        let (archive, reference) = match (archive, reference) {
            (Ok(archive), Ok(reference)) => (archive, reference),
            (Err(difference), _) | (_, Err(difference)) => {
                self.fail(&label, &difference);
                return None;
            }
        };
        match seen::compare(&request.buffers(), &archive, &reference) {
            Ok(()) => self.coverage.note(&request, &archive),
            Err(difference) => self.fail(&label, &difference),
        }
        Some(archive)
    }

    /// Notes a check of what was seen.
    pub fn check(&mut self, label: &dyn Fn() -> String, result: Result<(), String>) {
        if let Err(difference) = result {
            self.fail(label, &difference);
        }
    }

    fn fail(&mut self, label: &dyn Fn() -> String, difference: &str) {
        self.failed += 1;
        if self.report == At::TheFirst {
            println!("{}: {difference} (call {})", label(), self.calls);
            exit(DIFFERENT);
        }
        if self.failed <= PRINTED {
            println!("{}: {difference}", label());
        }
    }

    pub fn merge(&mut self, other: &Outcome) {
        self.calls += other.calls;
        self.failed += other.failed;
        for (part, calls) in &other.parts {
            *self.parts.entry(part).or_default() += calls;
        }
        self.coverage.merge(&other.coverage);
    }

    /// Prints the coverage; what never came counts as failed.
    pub fn report(mut self) -> ExitCode {
        for (part, calls) in &self.parts {
            println!("{calls:>9}  calls: {part}");
        }
        for missing in self.coverage.report() {
            println!("never came: {missing}");
            self.failed += 1;
        }
        let passed = self.calls.saturating_sub(self.failed);
        println!("{passed} passed, {} failed", self.failed);
        if self.failed == 0 && passed > 0 {
            ExitCode::SUCCESS
        } else {
            ExitCode::from(DIFFERENT as u8)
        }
    }
}
