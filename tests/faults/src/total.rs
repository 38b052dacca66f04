//! What all parts came to.

use std::process::ExitCode;
use std::time::Instant;

use crate::parts::Outcome;

/// Complaints of a part printed in full; the others are only counted.
const PRINTED: usize = 20;

pub struct Total {
    passed: usize,
    failed: usize,
    faults: usize,
    states: usize,
    /// When the part began.
    began: Instant,
}

impl Default for Total {
    fn default() -> Self {
        Total {
            passed: 0,
            failed: 0,
            faults: 0,
            states: 0,
            began: Instant::now(),
        }
    }
}

impl Total {
    /// Adds a part and prints what it says.
    pub fn add(&mut self, part: Outcome) {
        println!("{} ({} s)", part.words, self.began.elapsed().as_secs());
        for complaint in part.complaints.iter().take(PRINTED) {
            println!("failed: {complaint}");
        }
        if part.complaints.len() > PRINTED {
            println!("and {} more", part.complaints.len() - PRINTED);
        }
        self.passed += part.passed;
        self.failed += part.complaints.len();
        self.faults += part.faults;
        self.states += part.states;
        self.began = Instant::now();
    }

    pub fn report(&self) -> ExitCode {
        let (faults, states) = (self.faults, self.states);
        let good = self.failed == 0 && self.passed > 0;
        let all = if good { "all" } else { "not all" };
        println!("{faults} faults, {states} states after power cuts: {all} recovered");
        println!("{} passed, {} failed", self.passed, self.failed);
        if good {
            ExitCode::SUCCESS
        } else {
            ExitCode::FAILURE
        }
    }
}
