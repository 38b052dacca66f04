//! Audit: whether maps, counts, expiries and held blocks follow from the records.

use std::collections::HashSet;
use std::ops::{Deref, DerefMut};

use crate::keeping::{self, IsKept};
use crate::layout::{Book, Header, Pbn, Slot, FREE, HELD, UNMAPPED, VOLUMES};

/// What audit asks of a rule of days.
#[derive(Clone, Copy)]
pub struct Days {
    /// The day that the befores of a slot's records wait from, by the volume's slot before it and by
    /// the slot itself.
    pub waits_from: fn(Option<&Slot>, &Slot) -> u16,
    pub is_kept: IsKept,
}

/// The rule of today's layout. Only in a damaged book has a volume's first slot a record with a
/// before.
pub const FROM_TAKING: Days = Days {
    waits_from: |previous, _| previous.map_or(0, |slot| slot.day),
    is_kept: keeping::is_kept,
};

/// What may be wrong with a book in form.
#[derive(Clone, Copy, Debug, PartialEq, Eq, PartialOrd, Ord)]
pub enum Fault {
    /// The maps aren't the records replayed, or a before isn't the cell that it replaces.
    Replay,
    Count,
    Expiry,
    /// Two held blocks have one fingerprint.
    Fingerprint,
    /// A current map or a kept backup names a free block.
    FreeButNamed,
}

impl Fault {
    pub const ALL: [Fault; 5] = [
        Fault::Replay,
        Fault::Count,
        Fault::Expiry,
        Fault::Fingerprint,
        Fault::FreeButNamed,
    ];

    /// Those of a book in form, by a rule of days.
    pub(crate) fn all_in<'a>(
        book: &'a Book<&[u8]>,
        days: Days,
    ) -> impl Iterator<Item = Fault> + 'a {
        let faults = Fault::ALL.into_iter();
        faults.filter(move |fault| fault.is_in(book, days))
    }

    fn is_in(self, book: &Book<&[u8]>, days: Days) -> bool {
        !match self {
            Fault::Replay => maps_are_replayed(book),
            Fault::Count => counts_are_cells(book),
            Fault::Expiry => expiries_are_largest(book, days),
            Fault::Fingerprint => held_fingerprints_differ(book),
            Fault::FreeButNamed => {
                (0..VOLUMES).all(|volume| named_blocks_are_held(book, volume, days.is_kept))
            }
        }
    }
}

/// The maps are the records replayed in order, each before the cell that it replaces.
fn maps_are_replayed(book: &Book<&[u8]>) -> bool {
    let unmapped = vec![UNMAPPED; usize::from(book.sizes().lbns)];
    let mut maps = vec![unmapped; usize::from(VOLUMES)];
    for slot in book.used_slots() {
        for index in slot.records() {
            let record = book.record(index);
            let cell = &mut maps[usize::from(slot.volume)][record.lbn.index()];
            if *cell != record.before {
                return false;
            }
            *cell = record.after;
        }
    }
    (0..VOLUMES).all(|volume| book.map(volume) == maps[usize::from(volume)])
}

fn counts_are_cells(book: &Book<&[u8]>) -> bool {
    let mut cells = vec![0u32; usize::from(book.sizes().blocks)];
    for volume in 0..VOLUMES {
        for cell in book.map(volume) {
            if cell != UNMAPPED {
                cells[cell.index()] += 1;
            }
        }
    }
    book.pbns()
        .all(|pbn| u32::from(book.entry(pbn).count) == cells[pbn.index()])
}

fn expiries_are_largest(book: &Book<&[u8]>, days: Days) -> bool {
    let expiries = expiries(book, days);
    book.pbns()
        .all(|pbn| book.entry(pbn).expiry == expiries[pbn.index()])
}

/// The expiries that the journal of a book in form comes to: for each block the largest day waited from
/// plus retention over records with that before, 0 if there are none.
pub fn expiries<B: Deref<Target = [u8]>>(book: &Book<B>, days: Days) -> Vec<u16> {
    let mut expiries = vec![0; usize::from(book.sizes().blocks)];
    let mut newest: [Option<Slot>; VOLUMES as usize] = [None; VOLUMES as usize];
    for slot in book.used_slots() {
        let previous = newest[usize::from(slot.volume)].replace(slot);
        let from = (days.waits_from)(previous.as_ref(), &slot);
        let expiry = keeping::last_day(from, book.retention(slot.volume));
        for index in slot.records() {
            let before = book.record(index).before;
            if before != UNMAPPED {
                let largest = &mut expiries[before.index()];
                *largest = expiry.max(*largest);
            }
        }
    }
    expiries
}

/// Works every expiry of a book in form out afresh from its journal.
pub fn settle_expiries<B: DerefMut<Target = [u8]>>(book: &mut Book<B>, days: Days) {
    let expiries = expiries(book, days);
    for (pbn, expiry) in book.pbns().zip(expiries) {
        book.edit_entry(pbn, |entry| entry.expiry = expiry);
    }
}

fn held_fingerprints_differ(book: &Book<&[u8]>) -> bool {
    let mut seen = HashSet::new();
    book.pbns()
        .map(|pbn| book.entry(pbn))
        .filter(|entry| entry.state == HELD)
        .all(|entry| seen.insert(entry.fingerprint))
}

/// Neither the current map nor a kept backup names a free block. Goes back from the
/// current map; undoing a slot's records from the last leaves the first one's before. The newest
/// backup is the current map, or what is left once a retirement is undone.
fn named_blocks_are_held(book: &Book<&[u8]>, volume: u8, is_kept: IsKept) -> bool {
    let is_held = |&cell: &Pbn| cell == UNMAPPED || book.entry(cell).state != FREE;
    let mut map = book.map(volume);
    if !map.iter().all(is_held) {
        return false;
    }
    let slots = book.used_slots_of(volume);
    let (backups, day) = (book.backups_of(volume), book.header(Header::Day));
    for number in (1..slots.len()).rev() {
        for index in slots[number].records().rev() {
            let record = book.record(index);
            map[record.lbn.index()] = record.before;
        }
        let kept = is_kept(&backups, number, day);
        if kept && !map.iter().all(is_held) {
            return false;
        }
    }
    true
}
