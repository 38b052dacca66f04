//! Shapes of books whose expiries were worked out afresh.

use reference::keeping;
use reference::layout::{Book, Entry, Header, Slot, HELD, VOLUMES};
use reference::layout_2;
use reference::store::{self, Fault};

use super::days::replacing;
use super::Shape;

pub struct Afresh<'a> {
    old: Book<&'a [u8]>,
    /// The entry of each block in the book that was given, and in the one that was written.
    entries: Vec<(Entry, Entry)>,
    faults: (Vec<Fault>, Vec<Fault>),
}

impl<'a> Afresh<'a> {
    /// Of an accepted conversion.
    pub fn new(old: &'a [u8], output: &[u8]) -> Self {
        let new = &output[..old.len()];
        let faults = (layout_2::faults(2, old), store::faults(new));
        let (old, new) = (Book::over(old), Book::over(new));
        let entries = old.pbns().map(|pbn| (old.entry(pbn), new.entry(pbn)));
        Afresh {
            entries: entries.collect(),
            old,
            faults: (faults.0.expect("in form"), faults.1.expect("in form")),
        }
    }

    fn any(&self, is: impl Fn(&Entry, &Entry) -> bool) -> bool {
        self.entries.iter().any(|(old, new)| is(old, new))
    }

    pub fn expiry_shapes(&self) -> Vec<Shape> {
        let moved = |old: &Entry, new: &Entry| old.expiry != new.expiry;
        let expiring = self.any(|_, new| new.expiry > 0);
        let day = self.old.header(Header::Day);
        let waits = |entry: &Entry| entry.state == HELD && entry.count == 0;
        vec![
            ("every expiry stays", expiring && !self.any(moved)),
            (
                "an expiry falls",
                self.any(|old, new| new.expiry < old.expiry),
            ),
            (
                "an expiry rises",
                self.any(|old, new| new.expiry > old.expiry),
            ),
            (
                "an expiry that no record has falls to 0",
                self.any(|old, new| old.expiry > 0 && new.expiry == 0),
            ),
            (
                "a free block's expiry falls",
                self.any(|old, new| old.state != HELD && new.expiry < old.expiry),
            ),
            (
                "the expiry of a block in use falls",
                self.any(|old, new| old.count > 0 && new.expiry < old.expiry),
            ),
            (
                "a block that waits may go at once",
                self.any(|old, new| waits(old) && old.expiry >= day && new.expiry < day),
            ),
        ]
    }

    pub fn journal_shapes(&self) -> Vec<Shape> {
        let replacing = replacing(&self.old);
        let previous = |is: fn(Option<Slot>) -> bool| replacing.iter().any(|(slot, _)| is(*slot));
        let used = |field| self.old.header(field);
        let sizes = self.old.sizes();
        vec![
            ("no backup", used(Header::SlotsUsed) == 0),
            (
                "every record used",
                used(Header::RecordsUsed) == sizes.records,
            ),
            (
                "a block that waits for a backup without changes",
                previous(|slot| slot.is_some_and(|slot| slot.number == 0)),
            ),
            (
                "a record without a previous backup",
                previous(|slot| slot.is_none()),
            ),
        ]
    }

    /// What audit and reads make of it.
    pub fn kept_shapes(&self) -> Vec<Shape> {
        let (old, new) = (&self.faults.0[..], &self.faults.1[..]);
        let gone = (0..VOLUMES).any(|volume| self.loses_a_backup(volume));
        vec![
            ("a backup that could be read goes", gone),
            (
                "a wrong expiry is healed",
                old == [Fault::Expiry] && new.is_empty(),
            ),
            (
                "a freed block that no kept backup names any more",
                old.contains(&Fault::FreeButNamed) && !new.contains(&Fault::FreeButNamed),
            ),
            (
                "a freed block that a kept backup names",
                new.contains(&Fault::FreeButNamed),
            ),
        ]
    }

    fn loses_a_backup(&self, volume: u8) -> bool {
        let backups = self.old.backups_of(volume);
        let day = self.old.header(Header::Day);
        (1..=backups.days.len()).any(|number| {
            layout_2::is_kept(&backups, number, day) && !keeping::is_kept(&backups, number, day)
        })
    }
}
