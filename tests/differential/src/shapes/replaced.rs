//! Shapes of the blocks that an accepted backup replaced or an accepted retirement unmapped, by the
//! days that they wait for.

use reference::keeping::last_day;
use reference::layout::{Book, Header, Pbn, Record, Slot, UNMAPPED};

use super::Shape;

type View<'a> = Book<&'a [u8]>;

pub struct Replaced<'a> {
    before: &'a View<'a>,
    after: &'a View<'a>,
    /// The blocks that it replaced or unmapped.
    blocks: Vec<Pbn>,
    /// The volume's slots before it.
    slots: Vec<Slot>,
    retention: u16,
}

impl<'a> Replaced<'a> {
    pub fn new(before: &'a View<'a>, after: &'a View<'a>, volume: u8, added: &[Record]) -> Self {
        let befores = added.iter().map(|record| record.before);
        Replaced {
            before,
            after,
            blocks: befores.filter(|&pbn| pbn != UNMAPPED).collect(),
            slots: before.used_slots_of(volume),
            retention: before.retention(volume),
        }
    }

    fn any(&self, is: impl Fn(Pbn) -> bool) -> bool {
        self.blocks.iter().any(|&pbn| is(pbn))
    }

    /// An expiry is raised to this day.
    fn rises_to(&self, day: u16) -> bool {
        self.any(|pbn| {
            let expiry = self.after.entry(pbn).expiry;
            expiry > self.before.entry(pbn).expiry && expiry == day
        })
    }

    /// Of the expiries.
    pub fn expiry_shapes(&self) -> [Shape; 4] {
        let previous = self.slots.last().map(|slot| slot.day);
        let last = previous.map(|day| last_day(day, self.retention));
        let stays = |pbn: Pbn| Some(self.before.entry(pbn).expiry) > last;
        let today = self.after.header(Header::Day);
        let may_go = |pbn: Pbn| {
            let entry = self.after.entry(pbn);
            entry.count == 0 && entry.expiry < today
        };
        [
            (
                "an expiry rises to the previous backup's last day",
                last.is_some_and(|last| self.rises_to(last)),
            ),
            (
                "an expiry rises from day 0, without a previous backup",
                last.is_none() && self.rises_to(self.retention),
            ),
            (
                "an expiry stays, being the larger",
                last.is_some() && self.any(stays),
            ),
            ("a block is replaced that may go at once", self.any(may_go)),
        ]
    }

    /// Of the backup before it, where something else is near at hand.
    pub fn previous_shapes(&self) -> [Shape; 3] {
        let (first, previous) = (self.slots.first(), self.slots.last());
        let replaces = !self.blocks.is_empty();
        let is = |is: &dyn Fn(&Slot) -> bool| replaces && previous.is_some_and(is);
        let newest = self.before.used_slots().last();
        [
            (
                "a block is replaced after a backup without changes",
                is(&|slot| slot.number == 0),
            ),
            (
                "a block is replaced, the previous backup not the first",
                is(&|slot| first.is_some_and(|first| first.day < slot.day)),
            ),
            (
                "a block is replaced, another volume's backup in between",
                is(&|slot| newest.is_some_and(|newest| newest.day > slot.day)),
            ),
        ]
    }
}
