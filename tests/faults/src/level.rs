//! How much is tried: in `make check`, and in `make faults`.

use crate::bench::Reading;
use crate::cutting::Bounds;
use crate::fault::How;

#[derive(Clone, Copy)]
pub struct Level {
    /// Whether every kept backup is restored each time, a process is killed before each call and
    /// not only after the one before, and every bit of a book is flipped.
    pub all: bool,
    /// The faults that a power cut follows.
    pub before_cuts: &'static [How],
    pub bounds: Bounds,
    /// Of the commands that meet rotted blocks, one in so many is tried.
    pub repairs: usize,
    /// Stories by chance whose every call goes wrong, and those in which faults come by chance.
    pub stories: u64,
    pub soaks: u64,
}

impl Level {
    pub const CHECK: Level = Level {
        all: false,
        before_cuts: &[How::Before, How::Failed],
        bounds: Bounds {
            cuts: 200,
            opened: 1,
            formatted: 6,
        },
        repairs: 5,
        stories: 0,
        soaks: 60,
    };
    pub const LONG: Level = Level {
        all: true,
        before_cuts: &[How::Before, How::Failed, How::Dead, How::Torn],
        bounds: Bounds {
            cuts: 5_000,
            opened: 8,
            formatted: 100,
        },
        repairs: 1,
        stories: 4,
        soaks: 2_000,
    };

    pub fn reading(&self) -> Reading {
        if self.all {
            Reading::All
        } else {
            Reading::One
        }
    }
}
