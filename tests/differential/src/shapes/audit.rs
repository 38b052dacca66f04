//! Shapes of audits.

use reference::layout::{Book, Slot, HELD, UNMAPPED, VOLUMES};
use reference::layout_2::{self, renumbered};
use reference::store::{self, Fault};

use super::days::replacing;
use super::{alike, Shape};

/// Whether a slot that replaces a block has none of its volume before it, or one without changes.
fn previous(book: &Book<&[u8]>) -> (bool, bool) {
    let replacing = replacing(book);
    let mut previous = replacing.iter().map(|(previous, _)| *previous);
    let none = previous.clone().any(|previous| previous.is_none());
    let without_changes = previous.any(|slot| slot.is_some_and(|slot| slot.number == 0));
    (none, without_changes)
}

pub fn shapes(book: &[u8]) -> [Shape; 13] {
    let faults = store::faults(book).expect("a book in form");
    // A book with a retirement isn't in form in layout 2.
    let old = layout_2::faults(2, &renumbered(book)).ok();
    let old_has = |fault| old.as_ref().map(|old| old.contains(&fault));
    let (sound, alone) = (faults.is_empty(), |fault| faults == [fault]);
    let view = Book::over(book);
    let (no_previous, without_changes) = previous(&view);
    [
        ("yes", sound),
        (
            "yes, with a block free that layout 2 would keep",
            sound && old_has(Fault::FreeButNamed) == Some(true),
        ),
        (
            "yes, with a block that waits for a backup without changes",
            sound && without_changes,
        ),
        (
            "yes, with two fingerprints of one bucket",
            sound && alike::share_a_bucket(&view),
        ),
        ("no, by the replay alone", alone(Fault::Replay)),
        (
            "no, by the replay alone, where a first backup replaces",
            alone(Fault::Replay) && no_previous,
        ),
        ("no, by a count alone", alone(Fault::Count)),
        ("no, by an expiry alone", alone(Fault::Expiry)),
        (
            "no, by the expiries that layout 2 had",
            alone(Fault::Expiry) && old_has(Fault::Expiry) == Some(false),
        ),
        ("no, by a fingerprint alone", alone(Fault::Fingerprint)),
        (
            "no, by two equal fingerprints alone, and one of their bucket between",
            alone(Fault::Fingerprint) && alike::equal_around_another(&view),
        ),
        ("no, by a freed block alone", alone(Fault::FreeButNamed)),
        ("no, by several", faults.len() > 1),
    ]
}

/// The audit of a book with retired volumes.
pub struct Retired<'a> {
    book: Book<&'a [u8]>,
    faults: Vec<Fault>,
    volumes: Vec<u8>,
}

impl<'a> Retired<'a> {
    pub fn new(book: &'a [u8]) -> Self {
        let faults = store::faults(book).expect("a book in form");
        let book = Book::over(book);
        let is_retired = |volume: &u8| book.retired_on(*volume).is_some();
        Retired {
            faults,
            volumes: (0..VOLUMES).filter(is_retired).collect(),
            book,
        }
    }

    /// A volume's retirement unmapped a block that is free now.
    fn newest_is_freed(&self) -> bool {
        let slots = self.book.used_slots().filter(Slot::is_retirement);
        let records = slots.flat_map(|slot| slot.records());
        let mut befores = records.map(|index| self.book.record(index).before);
        befores.any(|pbn| pbn != UNMAPPED && self.book.entry(pbn).state != HELD)
    }

    pub fn yes_shapes(&self) -> [Shape; 4] {
        let sound = self.faults.is_empty();
        let any = |is: fn(&Slot) -> bool| {
            let mut slots = self.book.used_slots().filter(Slot::is_retirement);
            sound && slots.any(|slot| is(&slot))
        };
        let maps = self.volumes.iter().map(|&volume| self.book.map(volume));
        let left = maps.flatten().any(|cell| cell != UNMAPPED);
        [
            (
                "yes, with a retirement of cells",
                any(|slot| slot.number > 0),
            ),
            (
                "yes, with a retirement without cells",
                any(|slot| slot.number == 0),
            ),
            ("yes, with a retired volume's map left", sound && left),
            (
                "yes, with a block free that a retired volume's newest names",
                sound && self.newest_is_freed(),
            ),
        ]
    }

    pub fn no_shapes(&self) -> [Shape; 4] {
        let alone = |fault| !self.volumes.is_empty() && self.faults == [fault];
        let freed = alone(Fault::FreeButNamed) && self.newest_is_freed();
        [
            (
                "no, by the replay alone, with a retirement",
                alone(Fault::Replay),
            ),
            (
                "no, by a count alone, with a retirement",
                alone(Fault::Count),
            ),
            (
                "no, by an expiry alone, with a retirement",
                alone(Fault::Expiry),
            ),
            (
                "no, by a freed block alone that a retired volume's newest names",
                freed,
            ),
        ]
    }
}
