//! The book's bytes: sizes, offsets and the values of its fields, and `format`.

mod book;

pub use book::Book;

use std::ops::{Range, RangeInclusive};

/// The layout that `format` makes and that the calls take.
pub const LAYOUT: u16 = 3;
pub const VOLUMES: u8 = 8;
pub const BLOCK_BYTES: usize = 512;
pub const FINGERPRINT_BYTES: usize = 16;

pub const BLOCKS_RANGE: RangeInclusive<u16> = 1..=4_096;
pub const LBNS_RANGE: RangeInclusive<u16> = 1..=1_024;
pub const SLOTS_RANGE: RangeInclusive<u16> = 1..=1_024;
pub const RECORDS_RANGE: RangeInclusive<u16> = 1..=16_384;
pub const RETENTION_RANGE: RangeInclusive<u16> = 1..=5_000;
pub const DAY_MAX: u16 = 60_000;
pub const EXPIRY_MAX: u16 = 65_000;

pub const HEADER_BYTES: usize = 20;
const RETENTIONS_BYTES: usize = 2 * VOLUMES as usize;
/// State, expiry and fingerprint of an entry.
const PAST_COUNT_BYTES: usize = 1 + 2 + FINGERPRINT_BYTES;
const CELL_BYTES: usize = 2;
const SLOT_BYTES: usize = 8;
const RECORD_BYTES: usize = 6;

pub type Fingerprint = [u8; 16];
pub type Block = [u8; 512];

/// Number of a block of an aid's volume.
#[derive(Clone, Copy, Debug, PartialEq, Eq, PartialOrd, Ord)]
pub struct Lbn(pub u16);

/// Number of a block of the pool.
#[derive(Clone, Copy, Debug, PartialEq, Eq, PartialOrd, Ord)]
pub struct Pbn(pub u16);

pub const UNMAPPED: Pbn = Pbn(65_535);

impl Lbn {
    pub fn index(self) -> usize {
        usize::from(self.0)
    }
}

impl Pbn {
    pub fn index(self) -> usize {
        usize::from(self.0)
    }

    /// The bytes of this block within the pool.
    pub fn pool_range(self) -> Range<usize> {
        let start = self.index() * BLOCK_BYTES;
        start..start + BLOCK_BYTES
    }
}

/// The header's fields, in order.
#[derive(Clone, Copy, Debug, PartialEq, Eq)]
pub enum Header {
    Layout,
    Blocks,
    Lbns,
    Slots,
    Records,
    SlotsUsed,
    RecordsUsed,
    Day,
    Cursor,
    Zero,
}

pub const FREE: u8 = 0;
pub const HELD: u8 = 1;

#[derive(Clone, Copy, Debug, PartialEq, Eq)]
pub struct Entry {
    pub count: u16,
    pub state: u8,
    pub expiry: u16,
    pub fingerprint: Fingerprint,
}

impl Entry {
    /// Makes a held entry that nothing counts free; its expiry is kept.
    pub fn set_free(&mut self) {
        self.state = FREE;
        self.fingerprint = [0; FINGERPRINT_BYTES];
    }
}

/// The kinds of slots; a retirement is no backup and has no number.
pub const BACKUP: u8 = 0;
pub const RETIREMENT: u8 = 1;

#[derive(Clone, Copy, Debug, PartialEq, Eq)]
pub struct Slot {
    pub volume: u8,
    pub kind: u8,
    pub day: u16,
    pub first: u16,
    pub number: u16,
}

pub const UNUSED_SLOT: Slot = Slot {
    volume: 0,
    kind: 0,
    day: 0,
    first: 0,
    number: 0,
};

impl Slot {
    pub fn is_retirement(&self) -> bool {
        self.kind == RETIREMENT
    }

    /// The indexes of this slot's records.
    pub fn records(&self) -> Range<usize> {
        let first = usize::from(self.first);
        first..first + usize::from(self.number)
    }
}

#[derive(Clone, Copy, Debug, PartialEq, Eq)]
pub struct Record {
    pub lbn: Lbn,
    pub before: Pbn,
    pub after: Pbn,
}

pub const UNUSED_RECORD: Record = Record {
    lbn: Lbn(0),
    before: Pbn(0),
    after: Pbn(0),
};

/// The four sizes: N pool blocks, L logical blocks a volume, S backup slots, J records.
#[derive(Clone, Copy, Debug, PartialEq, Eq)]
pub struct Sizes {
    pub blocks: u16,
    pub lbns: u16,
    pub slots: u16,
    pub records: u16,
}

impl Sizes {
    pub fn in_range(self) -> bool {
        BLOCKS_RANGE.contains(&self.blocks)
            && LBNS_RANGE.contains(&self.lbns)
            && SLOTS_RANGE.contains(&self.slots)
            && RECORDS_RANGE.contains(&self.records)
    }

    pub fn book_bytes(self) -> usize {
        self.book_bytes_in(LAYOUT)
    }

    pub fn book_bytes_in(self, layout: u16) -> usize {
        let places = Places {
            layout,
            sizes: self,
        };
        places.record_at(usize::from(self.records))
    }

    pub fn pool_bytes(self) -> usize {
        BLOCK_BYTES * usize::from(self.blocks)
    }
}

/// Where a book of these sizes has its fields, by its layout number.
#[derive(Clone, Copy)]
struct Places {
    layout: u16,
    sizes: Sizes,
}

impl Places {
    fn count_bytes(self) -> usize {
        match self.layout {
            1 => 1,
            _ => 2,
        }
    }

    fn entry_at(self, pbn: usize) -> usize {
        let entry_bytes = self.count_bytes() + PAST_COUNT_BYTES;
        HEADER_BYTES + RETENTIONS_BYTES + entry_bytes * pbn
    }

    fn cell_at(self, volume: u8, lbn: usize) -> usize {
        let cells = usize::from(volume) * usize::from(self.sizes.lbns) + lbn;
        self.entry_at(usize::from(self.sizes.blocks)) + CELL_BYTES * cells
    }

    fn slot_at(self, slot: usize) -> usize {
        self.cell_at(VOLUMES, 0) + SLOT_BYTES * slot
    }

    fn record_at(self, record: usize) -> usize {
        self.slot_at(usize::from(self.sizes.slots)) + RECORD_BYTES * record
    }
}

fn retention_at(volume: u8) -> usize {
    HEADER_BYTES + 2 * usize::from(volume)
}

pub(crate) fn get_u16(bytes: &[u8], at: usize) -> u16 {
    u16::from_le_bytes([bytes[at], bytes[at + 1]])
}

pub(crate) fn put_u16(bytes: &mut [u8], at: usize, value: u16) {
    bytes[at..at + 2].copy_from_slice(&value.to_le_bytes());
}

/// Writes a fresh book: all zero but layout and sizes, maps unmapped. The length must fit.
pub fn format(bytes: &mut [u8], sizes: Sizes) {
    format_in(LAYOUT, bytes, sizes);
}

pub fn format_in(layout: u16, bytes: &mut [u8], sizes: Sizes) {
    bytes.fill(0);
    put_u16(bytes, 2 * Header::Layout as usize, layout);
    put_u16(bytes, 2 * Header::Blocks as usize, sizes.blocks);
    put_u16(bytes, 2 * Header::Lbns as usize, sizes.lbns);
    put_u16(bytes, 2 * Header::Slots as usize, sizes.slots);
    put_u16(bytes, 2 * Header::Records as usize, sizes.records);
    let places = Places { layout, sizes };
    let maps = places.cell_at(0, 0)..places.cell_at(VOLUMES, 0);
    bytes[maps].fill(0xFF);
}
