//! A fault: at which writing call of a process, and what happens there.

use std::fmt;

/// See the shim for what each does.
#[derive(Clone, Copy, Debug, PartialEq, Eq)]
pub enum How {
    Failed,
    NoSpace,
    Interrupted,
    Short,
    Before,
    After,
    Torn,
    Full,
    Dead,
}

impl How {
    /// The shim's name for it.
    pub fn name(self) -> &'static str {
        match self {
            How::Failed => "EIO",
            How::NoSpace => "ENOSPC",
            How::Interrupted => "EINTR",
            How::Short => "short",
            How::Before => "before",
            How::After => "after",
            How::Torn => "torn",
            How::Full => "full",
            How::Dead => "dead",
        }
    }

    pub fn kills(self) -> bool {
        matches!(self, How::Before | How::After | How::Torn)
    }

    /// Whether the program has to go on as if nothing had happened.
    pub fn is_harmless(self) -> bool {
        matches!(self, How::Interrupted | How::Short)
    }

    /// Whether a temporary file can be left, because nothing could remove it.
    pub fn may_leave_files(self) -> bool {
        self.kills() || self == How::Dead
    }
}

#[derive(Clone, Copy, Debug)]
pub struct Fault {
    /// The number of the call, from 1.
    pub at: usize,
    pub how: How,
}

impl fmt::Display for Fault {
    fn fmt(&self, to: &mut fmt::Formatter) -> fmt::Result {
        write!(to, "{} at call {}", self.how.name(), self.at)
    }
}
