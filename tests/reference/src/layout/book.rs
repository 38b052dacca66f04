//! A view of a book's bytes that reads and writes every field.

use std::ops::{Deref, DerefMut};

use crate::keeping::Backups;

use super::{
    get_u16, put_u16, retention_at, Entry, Header, Lbn, Pbn, Places, Record, Sizes, Slot,
    FINGERPRINT_BYTES, PAST_COUNT_BYTES,
};

/// A view of a book whose length fits the layout and the sizes in its header.
pub struct Book<B> {
    bytes: B,
    places: Places,
}

impl<B: Deref<Target = [u8]>> Book<B> {
    /// The bytes must reach to the end of the header.
    pub fn over(bytes: B) -> Self {
        let field = |field: Header| get_u16(&bytes, 2 * field as usize);
        let layout = field(Header::Layout);
        let sizes = Sizes {
            blocks: field(Header::Blocks),
            lbns: field(Header::Lbns),
            slots: field(Header::Slots),
            records: field(Header::Records),
        };
        let places = Places { layout, sizes };
        Book { bytes, places }
    }

    pub fn sizes(&self) -> Sizes {
        self.places.sizes
    }

    pub fn bytes(&self) -> &[u8] {
        &self.bytes
    }

    pub fn header(&self, field: Header) -> u16 {
        get_u16(&self.bytes, 2 * field as usize)
    }

    pub fn retention(&self, volume: u8) -> u16 {
        get_u16(&self.bytes, retention_at(volume))
    }

    pub fn entry(&self, pbn: Pbn) -> Entry {
        let at = self.places.entry_at(pbn.index());
        let count = match self.places.count_bytes() {
            1 => self.bytes[at].into(),
            _ => get_u16(&self.bytes, at),
        };
        let past = at + self.places.count_bytes();
        let mut fingerprint = [0; FINGERPRINT_BYTES];
        fingerprint.copy_from_slice(&self.bytes[past + 3..past + PAST_COUNT_BYTES]);
        Entry {
            count,
            state: self.bytes[past],
            expiry: get_u16(&self.bytes, past + 1),
            fingerprint,
        }
    }

    pub fn cell(&self, volume: u8, lbn: Lbn) -> Pbn {
        Pbn(get_u16(
            &self.bytes,
            self.places.cell_at(volume, lbn.index()),
        ))
    }

    pub fn slot(&self, slot: usize) -> Slot {
        let at = self.places.slot_at(slot);
        Slot {
            volume: self.bytes[at],
            kind: self.bytes[at + 1],
            day: get_u16(&self.bytes, at + 2),
            first: get_u16(&self.bytes, at + 4),
            number: get_u16(&self.bytes, at + 6),
        }
    }

    pub fn record(&self, record: usize) -> Record {
        let at = self.places.record_at(record);
        Record {
            lbn: Lbn(get_u16(&self.bytes, at)),
            before: Pbn(get_u16(&self.bytes, at + 2)),
            after: Pbn(get_u16(&self.bytes, at + 4)),
        }
    }

    pub fn pbns(&self) -> impl Iterator<Item = Pbn> {
        (0..self.sizes().blocks).map(Pbn)
    }

    pub fn lbns(&self) -> impl Iterator<Item = Lbn> {
        (0..self.sizes().lbns).map(Lbn)
    }

    pub fn used_slots(&self) -> impl Iterator<Item = Slot> + '_ {
        (0..usize::from(self.header(Header::SlotsUsed))).map(|slot| self.slot(slot))
    }

    /// A volume's backups in order, and its retirement after them.
    pub fn used_slots_of(&self, volume: u8) -> Vec<Slot> {
        self.used_slots()
            .filter(|slot| slot.volume == volume)
            .collect()
    }

    /// The slots of a volume's backups; the k-th is that of number k.
    pub fn backup_slots_of(&self, volume: u8) -> Vec<Slot> {
        let mut slots = self.used_slots_of(volume);
        slots.retain(|slot| !slot.is_retirement());
        slots
    }

    /// The day on which a volume was retired; none while it isn't.
    pub fn retired_on(&self, volume: u8) -> Option<u16> {
        let mut slots = self.used_slots();
        let retirement = slots.find(|slot| slot.volume == volume && slot.is_retirement());
        retirement.map(|slot| slot.day)
    }

    /// What the rule of keeping looks at in a volume.
    pub fn backups_of(&self, volume: u8) -> Backups {
        let slots = self.backup_slots_of(volume);
        Backups {
            days: slots.iter().map(|slot| slot.day).collect(),
            retention: self.retention(volume),
            retired: self.retired_on(volume),
        }
    }

    pub fn map(&self, volume: u8) -> Vec<Pbn> {
        self.lbns().map(|lbn| self.cell(volume, lbn)).collect()
    }
}

impl<B: DerefMut<Target = [u8]>> Book<B> {
    pub fn set_header(&mut self, field: Header, value: u16) {
        put_u16(&mut self.bytes, 2 * field as usize, value);
    }

    pub fn set_retention(&mut self, volume: u8, days: u16) {
        put_u16(&mut self.bytes, retention_at(volume), days);
    }

    /// Of a count above 255 a layout with one byte for it has the low byte only.
    pub fn set_entry(&mut self, pbn: Pbn, entry: Entry) {
        let at = self.places.entry_at(pbn.index());
        let past = at + self.places.count_bytes();
        let count = entry.count.to_le_bytes();
        self.bytes[at..past].copy_from_slice(&count[..past - at]);
        self.bytes[past] = entry.state;
        put_u16(&mut self.bytes, past + 1, entry.expiry);
        self.bytes[past + 3..past + PAST_COUNT_BYTES].copy_from_slice(&entry.fingerprint);
    }

    pub fn set_cell(&mut self, volume: u8, lbn: Lbn, pbn: Pbn) {
        let at = self.places.cell_at(volume, lbn.index());
        put_u16(&mut self.bytes, at, pbn.0);
    }

    pub fn set_slot(&mut self, slot: usize, value: Slot) {
        let at = self.places.slot_at(slot);
        self.bytes[at] = value.volume;
        self.bytes[at + 1] = value.kind;
        put_u16(&mut self.bytes, at + 2, value.day);
        put_u16(&mut self.bytes, at + 4, value.first);
        put_u16(&mut self.bytes, at + 6, value.number);
    }

    pub fn set_record(&mut self, record: usize, value: Record) {
        let at = self.places.record_at(record);
        put_u16(&mut self.bytes, at, value.lbn.0);
        put_u16(&mut self.bytes, at + 2, value.before.0);
        put_u16(&mut self.bytes, at + 4, value.after.0);
    }

    pub fn edit_entry(&mut self, pbn: Pbn, edit: impl FnOnce(&mut Entry)) {
        let mut entry = self.entry(pbn);
        edit(&mut entry);
        self.set_entry(pbn, entry);
    }

    pub fn edit_slot(&mut self, slot: usize, edit: impl FnOnce(&mut Slot)) {
        let mut value = self.slot(slot);
        edit(&mut value);
        self.set_slot(slot, value);
    }

    pub fn edit_record(&mut self, record: usize, edit: impl FnOnce(&mut Record)) {
        let mut value = self.record(record);
        edit(&mut value);
        self.set_record(record, value);
    }
}
