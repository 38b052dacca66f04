//! The power is cut after each writing call of a process: in how many ways that is tried, and which of
//! the states that it leaves the program is to open.

use reference::prng::Prng;

use crate::calls::Logged;
use crate::cuts::{are_all, cuts};
use crate::disk::Disk;
use crate::tree::Tree;

/// How many power cuts are tried.
#[derive(Clone, Copy)]
pub struct Bounds {
    /// At each call.
    pub cuts: usize,
    /// Of those, in each chain, opened by the program.
    pub opened: usize,
    /// The same of those without a book: whether a format can be run again only the program says.
    pub formatted: usize,
}

#[derive(Clone, Copy, Default)]
pub struct Counts {
    pub cuts: usize,
    pub opened: usize,
    /// Calls after which there are more ways than are tried.
    pub partial: usize,
}

impl Counts {
    pub fn add(&mut self, other: Counts) {
        self.cuts += other.cuts;
        self.opened += other.opened;
        self.partial += other.partial;
    }
}

/// The cuts so far, and the states that were chosen, each with what is known of it.
pub struct Cutting<T> {
    pub bounds: Bounds,
    pub counts: Counts,
    prng: Prng,
    chosen: Vec<T>,
}

impl<T> Cutting<T> {
    pub fn new(bounds: Bounds, seed: usize) -> Self {
        Cutting {
            bounds,
            counts: Counts::default(),
            prng: Prng::seeded(seed as u64),
            chosen: Vec::new(),
        }
    }

    /// Cuts the power now, in all ways or some.
    pub fn cut(
        &mut self,
        disk: &Disk,
        mut judge: impl FnMut(&mut Self, Tree) -> Result<(), String>,
    ) -> Result<(), String> {
        let choices = disk.choices();
        if !are_all(&choices, self.bounds.cuts) {
            self.counts.partial += 1;
        }
        for ways in cuts(&choices, self.bounds.cuts, &mut self.prng) {
            self.counts.cuts += 1;
            judge(self, disk.after_cut(&ways))?;
        }
        Ok(())
    }

    /// Chooses so many of all states, each with the same chance; this one is the `number`-th.
    pub fn draw(&mut self, state: T, number: usize, room: usize) {
        if self.chosen.len() < room {
            self.chosen.push(state);
        } else if let Some(place) = self.chosen.get_mut(self.prng.index(number)) {
            *place = state;
        }
    }

    /// Has each chosen state opened.
    pub fn open_chosen(
        mut self,
        mut open: impl FnMut(T) -> Result<(), String>,
    ) -> Result<Counts, String> {
        for state in self.chosen {
            open(state)?;
            self.counts.opened += 1;
        }
        Ok(self.counts)
    }
}

/// Plays a process on the disk, which is as programs see it then. `cut` is asked after each call that
/// had an effect on what a power cut leaves, with the calls so far.
pub fn cut_along(
    disk: &mut Disk,
    calls: &[Logged],
    seen: &Tree,
    mut cut: impl FnMut(&Disk, &[Logged]) -> Result<(), String>,
) -> Result<(), String> {
    disk.start_process();
    for (at, logged) in calls.iter().enumerate() {
        if disk.play(logged) {
            cut(disk, &calls[..=at])
                .map_err(|why| format!("after call {}: {why}", logged.number))?;
        }
    }
    if disk.seen() != *seen {
        return Err("the shim didn't see all that was written".into());
    }
    Ok(())
}
