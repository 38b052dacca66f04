//! Seeded runs of calls on one fresh book: mostly sensible, now and then refused.

mod shape;

pub use shape::Shape;

use crate::call::{Answer, Call, Stored};
use crate::layout::{Sizes, DAY_MAX, RETENTION_RANGE};
use crate::prng::Prng;
use crate::random_lists::RandomLists;
use crate::store::Run;
use crate::view::View;

/// Volumes that there are, and some that there aren't.
const ANY_VOLUME: [u16; 11] = [0, 1, 2, 3, 4, 5, 6, 7, 8, 256, 65_535];

pub struct RandomCalls {
    prng: Prng,
    sizes: Sizes,
    lists: RandomLists,
    retention_max: u16,
    volumes: u16,
    enrolled: u16,
    day: u16,
    /// Each volume's backups so far.
    backups: [u16; 8],
    retired: [bool; 8],
}

impl RandomCalls {
    /// A run of one of the quick shapes.
    pub fn seeded(seed: u64) -> Self {
        let shapes = Shape::QUICK;
        Self::shaped(shapes[(seed % shapes.len() as u64) as usize], seed)
    }

    pub fn shaped(shape: Shape, seed: u64) -> Self {
        let mut prng = Prng::seeded(seed);
        let sizes = shape.sizes(&mut prng);
        let late = prng.once_in(8);
        RandomCalls {
            sizes,
            lists: shape.lists(&mut prng, sizes),
            retention_max: prng.pick(&[1, 2, 3, 6, 12, 100, 1_000, *RETENTION_RANGE.end()]),
            volumes: shape.volumes(&mut prng),
            enrolled: 0,
            day: if late { DAY_MAX - 100 } else { 0 },
            backups: [0; 8],
            retired: [false; 8],
            prng,
        }
    }

    pub fn sizes(&self) -> Sizes {
        self.sizes
    }

    /// A pool of any bytes, as the run finds it.
    pub fn first_pool(&mut self) -> Vec<u8> {
        let mut pool = vec![0; self.sizes.pool_bytes()];
        self.prng.fill(&mut pool);
        pool
    }

    /// The box as this many calls leave it.
    pub fn run(&mut self, number: usize) -> Stored {
        let pool = self.first_pool();
        let mut stored = Stored::new(self.sizes, pool).expect("sizes in range");
        for _ in 0..number {
            let call = self.next_call();
            let answer = stored.call(&call);
            self.learn(&call, &answer);
        }
        stored
    }

    pub fn next_call(&mut self) -> Call {
        if self.enrolled < self.volumes {
            self.enrolled += 1;
            return self.enrol(self.enrolled - 1);
        }
        match self.prng.below(60) {
            0..=2 => {
                let volume = self.any_volume();
                self.enrol(volume)
            }
            3..=5 => Call::Audit,
            6..=14 => Call::Collect { day: self.day() },
            15..=32 => self.read(),
            33 | 34 => self.retire(),
            _ => self.backup(),
        }
    }

    /// A call that shows the book; another generator draws it, and the run goes on as it would.
    pub fn view(&self, prng: &mut Prng) -> View {
        let volume = match prng.below(6) {
            0 => prng.pick(&ANY_VOLUME),
            _ => prng.between(0, self.volumes - 1),
        };
        prng.pick(&View::all(volume))
    }

    /// A run to restore; as for a view, another generator draws it.
    pub fn restore(&self, prng: &mut Prng) -> Run {
        let volume = match prng.below(30) {
            0 => prng.pick(&ANY_VOLUME),
            _ => prng.between(0, self.volumes - 1),
        };
        let newest = self.newest(volume);
        let number = match prng.below(10) {
            0 => prng.pick(&[0, newest + 1, 65_535]),
            1..=3 => prng.between(1, newest.max(1)),
            _ => newest.saturating_sub(prng.between(0, 3)).max(1),
        };
        let (first, length) = self.any_run(prng);
        Run {
            volume,
            number,
            first,
            length,
        }
    }

    /// A retirement of one of the run's volumes, soon; as for a view, another generator draws it.
    pub fn retirement(&self, prng: &mut Prng) -> Call {
        let volume = prng.between(0, self.volumes - 1);
        let day = self.day.saturating_add(prng.between(0, 3));
        Call::Retire { volume, day }
    }

    /// Mostly a short run in the volume; now and then all of it, none of it, or one past its end.
    fn any_run(&self, prng: &mut Prng) -> (u16, u16) {
        let lbns = self.sizes.lbns;
        let first = prng.between(0, lbns - 1);
        let left = lbns - first;
        match prng.below(32) {
            0 => (prng.pick(&[0, first, lbns, lbns + 1]), 0),
            1..=3 => (0, lbns),
            4 => (first, left),
            5 => (first, left + 1),
            6 => (prng.pick(&[first, lbns, lbns + 1]), prng.pick(&[1, lbns])),
            7 => match prng.below(8) {
                0 => (prng.pick(&[first, 65_535]), 65_535),
                // Past the end, though not in 16 bits.
                _ => (65_535 - prng.between(0, 4), prng.between(1, 8)),
            },
            _ => (first, prng.between(1, left.min(8))),
        }
    }

    fn newest(&self, volume: u16) -> u16 {
        let newest = self.backups.get(usize::from(volume));
        newest.copied().unwrap_or(0)
    }

    /// Learns from an answer how many backups a volume has, and whether it is retired.
    pub fn learn(&mut self, call: &Call, answer: &Answer) {
        match (call, answer) {
            (Call::Backup { volume, .. }, Answer::BackedUp(backed_up)) => {
                self.backups[usize::from(*volume)] = backed_up.number;
            }
            (Call::Retire { volume, .. }, Answer::Retired(_)) => {
                self.retired[usize::from(*volume)] = true;
            }
            _ => {}
        }
    }

    /// The run's volumes that aren't retired.
    fn living(&self) -> Vec<u16> {
        let mut volumes: Vec<u16> = (0..self.volumes).collect();
        volumes.retain(|&volume| !self.retired[usize::from(volume)]);
        volumes
    }

    /// Mostly a volume that isn't retired.
    fn living_volume(&mut self) -> u16 {
        let living = self.living();
        if living.is_empty() || self.prng.once_in(12) {
            return self.volume();
        }
        self.prng.pick(&living)
    }

    fn enrol(&mut self, volume: u16) -> Call {
        let retention = match self.prng.below(12) {
            0 => self.prng.pick(&[0, 5_001, 65_535]),
            1 => 5_000,
            _ => self.prng.between(1, self.retention_max),
        };
        Call::Enrol { volume, retention }
    }

    fn any_volume(&mut self) -> u16 {
        self.prng.pick(&ANY_VOLUME)
    }

    fn volume(&mut self) -> u16 {
        if self.prng.once_in(30) {
            return self.any_volume();
        }
        self.prng.between(0, self.volumes - 1)
    }

    /// Mostly the same day or one soon after; now and then past a retention, or back.
    fn day(&mut self) -> u16 {
        if self.prng.once_in(30) {
            let before = self.day.saturating_sub(1);
            return self.prng.pick(&[0, before, 60_001, 65_535]);
        }
        let step = match self.prng.below(6) {
            0 => self.prng.between(0, 2 * self.retention_max),
            _ => self.prng.between(0, 2),
        };
        self.day = self.day.saturating_add(step).min(DAY_MAX);
        self.day
    }

    fn read(&mut self) -> Call {
        let volume = self.volume();
        let newest = self.newest(volume);
        let number = match self.prng.below(8) {
            0 => self.prng.pick(&[0, newest + 1, 65_535]),
            1 => self.prng.between(0, newest),
            _ => newest.saturating_sub(self.prng.between(0, 3)).max(1),
        };
        let lbn = match self.prng.below(20) {
            0 => self.prng.pick(&[self.sizes.lbns, 65_535]),
            _ => self.prng.between(0, self.sizes.lbns - 1),
        };
        Call::Read {
            volume,
            number,
            lbn,
        }
    }

    /// The last volume that isn't retired stays, but for one time in six.
    fn retire(&mut self) -> Call {
        if self.living().len() == 1 && !self.prng.once_in(6) {
            return self.backup();
        }
        let volume = self.living_volume();
        let day = self.day();
        Call::Retire { volume, day }
    }

    fn backup(&mut self) -> Call {
        let volume = self.living_volume();
        let day = self.day();
        let list = self.lists.next_list(&mut self.prng);
        Call::Backup { volume, day, list }
    }
}
