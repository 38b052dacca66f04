//! Shares out the work of a part, takes the complaints, and shows progress on a terminal.

use std::io::{stderr, IsTerminal, Write};
use std::sync::atomic::{AtomicBool, AtomicUsize, Ordering};
use std::sync::Mutex;
use std::time::{Duration, Instant};

const INTERVAL: Duration = Duration::from_millis(100);

pub struct Report {
    what: String,
    total: usize,
    next: AtomicUsize,
    complaints: Mutex<Vec<String>>,
    /// A complaint with this text ends the work.
    wanted: Option<String>,
    stopped: AtomicBool,
    shown: Mutex<Option<Instant>>,
}

impl Report {
    pub fn new(what: &str, total: usize, wanted: Option<&str>) -> Self {
        Report {
            what: what.into(),
            total,
            next: AtomicUsize::new(0),
            complaints: Mutex::default(),
            wanted: wanted.map(String::from),
            stopped: AtomicBool::new(false),
            shown: Mutex::new(None),
        }
    }

    /// The next thing to do, unless all is done.
    pub fn next(&self) -> Option<usize> {
        if self.stopped.load(Ordering::Relaxed) {
            return None;
        }
        let next = self.next.fetch_add(1, Ordering::Relaxed);
        self.show(next);
        (next < self.total).then_some(next)
    }

    pub fn complain(&self, label: String, why: String) {
        let complaint = format!("{label}: {why}");
        let wanted = self.wanted.as_ref();
        if wanted.is_some_and(|text| complaint.contains(text)) {
            self.stopped.store(true, Ordering::Relaxed);
        }
        let mut complaints = self.complaints.lock().expect("no worker panics");
        complaints.push(complaint);
    }

    fn show(&self, done: usize) {
        if !stderr().is_terminal() {
            return;
        }
        let mut shown = self.shown.lock().expect("no worker panics");
        if shown.is_none_or(|at| at.elapsed() >= INTERVAL) {
            *shown = Some(Instant::now());
            let done = done.min(self.total);
            let _ = write!(stderr(), "\r\x1b[K{}: {done} of {}", self.what, self.total);
        }
    }

    /// Ends the line of progress; the complaints.
    pub fn finish(self) -> Vec<String> {
        let shown = self.shown.into_inner().expect("no worker panics");
        if shown.is_some() {
            let _ = write!(stderr(), "\r\x1b[K");
        }
        self.complaints.into_inner().expect("no worker panics")
    }
}
