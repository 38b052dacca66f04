//! Shapes of backups on books in form, with the volume enrolled and buffers as asked.

use reference::change_list::{self, ChangeList};
use reference::layout::{
    Book, Fingerprint, Header, Pbn, Record, DAY_MAX, FREE, HELD, UNMAPPED, VOLUMES,
};

use super::alike::Alike;
use super::replaced::Replaced;
use super::{lists, Shape};
use crate::seen::Seen;

type View<'a> = Book<&'a [u8]>;

pub struct Backup<'a> {
    before: View<'a>,
    after: View<'a>,
    volume: u8,
    day: u16,
    bytes: &'a [u8],
    list: Option<ChangeList<'a>>,
    number: u16,
    /// The records that were added.
    added: Vec<Record>,
}

/// The change leaves the cell as it was.
fn again(record: &Record) -> bool {
    record.before == record.after
}

fn is_held(book: &View, pbn: Pbn) -> bool {
    book.entry(pbn).state == HELD
}

impl<'a> Backup<'a> {
    pub fn new(book: &'a [u8], (volume, day): (u16, u16), bytes: &'a [u8], seen: &'a Seen) -> Self {
        let before = Book::over(book);
        let after = Book::over(seen.content(0));
        let used = |book: &View| usize::from(book.header(Header::RecordsUsed));
        let added = used(&before)..used(&after);
        Backup {
            added: added.map(|index| after.record(index)).collect(),
            list: change_list::read(bytes, before.sizes().lbns).ok(),
            before,
            after,
            volume: volume as u8,
            day,
            bytes,
            number: seen.number,
        }
    }

    /// Of the blocks and cells of an accepted backup.
    pub fn change_shapes(&self) -> [Shape; 7] {
        [
            ("1,024 changes", self.added.len() == 1_024),
            ("a block that another volume has too", self.shares()),
            ("a cell's own block again", self.added.iter().any(again)),
            ("the cursor goes round", self.goes_round()),
            ("a freed block is taken again", self.takes_again()),
            ("the last free block is taken", self.fills_the_pool()),
            ("300 equal cells", self.equal_cells() >= 300),
        ]
    }

    /// Of the counts that an accepted backup changes.
    pub fn count_shapes(&self) -> [Shape; 6] {
        let moved = |from: fn(u16) -> bool, to: fn(u16) -> bool| {
            let mut named = self.added.iter().flat_map(|r| [r.before, r.after]);
            named.any(|pbn| {
                let count = |book: &View| book.entry(pbn).count;
                pbn != UNMAPPED && from(count(&self.before)) && to(count(&self.after))
            })
        };
        let full = |record: &Record| self.before.entry(record.after).count == u16::MAX;
        let mut again_when_full = self.added.iter().filter(|record| again(record));
        [
            ("a count above 255", moved(|_| true, |to| to > 255)),
            (
                "a count passes 255",
                moved(|from| from <= 255, |to| to > 255),
            ),
            (
                "a count falls to 255",
                moved(|from| from > 255, |to| to <= 255),
            ),
            ("a count of 8,192", moved(|_| true, |to| to == 8_192)),
            (
                "a count comes to 65,535",
                moved(|from| from < u16::MAX, |to| to == u16::MAX),
            ),
            (
                "a cell's own block again at count 65,535",
                again_when_full.any(full),
            ),
        ]
    }

    /// Of the list, the room left and the day of an accepted backup.
    pub fn accepted_shapes(&self) -> [Shape; 7] {
        let accepted = self.number == 0;
        let (day, day_before) = (self.day, self.before.header(Header::Day));
        let retention = self.before.retention(self.volume);
        let changed = !self.added.is_empty();
        let sizes = self.after.sizes();
        let last_slot = self.after.header(Header::SlotsUsed) == sizes.slots;
        let last_record = self.after.header(Header::RecordsUsed) == sizes.records;
        let passes = accepted && day - day_before > retention;
        let pairs = self.bytes.first_chunk().map(|two| u16::from_le_bytes(*two));
        [
            ("no changes", accepted && !changed),
            ("1,024 pairs that touch", accepted && pairs == Some(1_024)),
            ("the last slot is used", accepted && last_slot),
            ("the last record is used", changed && last_record),
            ("the day stays", accepted && day == day_before),
            ("the day passes a retention", passes),
            ("the day is 60,000", accepted && day == DAY_MAX),
        ]
    }

    /// What it replaced.
    pub fn replaced(&self) -> Replaced<'_> {
        Replaced::new(&self.before, &self.after, self.volume, &self.added)
    }

    /// The held fingerprints that its changes met.
    pub fn alike(&self) -> Alike {
        Alike::new(&self.before, self.list.as_ref(), &self.added)
    }

    /// Of the list's pairs.
    pub fn list_shapes(&self) -> impl IntoIterator<Item = Shape> {
        lists::shapes(self.bytes, self.before.sizes().lbns, self.number)
    }

    /// The pool is that before the call.
    pub fn refused_shapes(&self, pool: &[u8]) -> [Shape; 7] {
        let (day, day_before) = (self.day, self.before.header(Header::Day));
        let by_day = self.number == 7;
        let within = day >= day_before && day <= DAY_MAX;
        let by_bytes = self.number == 11;
        let in_pool = by_bytes && self.differs_in(pool);
        [
            (
                "refused for a day before the book's",
                by_day && day < day_before,
            ),
            ("refused for a day above 60,000", by_day && day > DAY_MAX),
            ("refused for a second backup in a day", by_day && within),
            (
                "refused for a list cut off",
                self.number == 8 && self.bytes.len() < 2,
            ),
            ("refused for other bytes in the pool", in_pool),
            ("refused for other bytes in the list", by_bytes && !in_pool),
            ("refused after a block was taken", self.stopped_half()),
        ]
    }

    fn shares(&self) -> bool {
        let Some(record) = self.added.first() else {
            return false;
        };
        let mut others = (0..VOLUMES).filter(|&volume| volume != self.volume);
        others.any(|volume| self.after.map(volume).contains(&record.after))
    }

    /// How many changes bring the block that most of them bring.
    fn equal_cells(&self) -> usize {
        let mut blocks: Vec<u16> = self.added.iter().map(|record| record.after.0).collect();
        blocks.sort_unstable();
        let equal = blocks.chunk_by(|one, other| one == other);
        equal.map(<[u16]>::len).max().unwrap_or(0)
    }

    /// The blocks that were free before and are held after.
    fn taken(&self) -> impl Iterator<Item = Pbn> + '_ {
        let afters = self.added.iter().map(|record| record.after);
        afters.filter(|&pbn| self.before.entry(pbn).state == FREE)
    }

    fn goes_round(&self) -> bool {
        let cursor = self.before.header(Header::Cursor);
        self.taken().any(|pbn| pbn.0 < cursor)
    }

    fn takes_again(&self) -> bool {
        self.taken().any(|pbn| self.before.entry(pbn).expiry > 0)
    }

    fn fills_the_pool(&self) -> bool {
        let mut blocks = self.after.pbns();
        self.taken().next().is_some() && blocks.all(|pbn| is_held(&self.after, pbn))
    }

    /// The lowest held block with this fingerprint.
    fn found(&self, fingerprint: &Fingerprint) -> Option<Pbn> {
        self.before.pbns().find(|&pbn| {
            is_held(&self.before, pbn) && self.before.entry(pbn).fingerprint == *fingerprint
        })
    }

    /// Some change finds a block that was held before the call, with other bytes.
    fn differs_in(&self, pool: &[u8]) -> bool {
        let Some(list) = &self.list else { return false };
        list.changes().any(|change| {
            let found = self.found(change.fingerprint);
            found.is_some_and(|pbn| pool[pbn.pool_range()] != change.block[..])
        })
    }

    /// Refused at a change, though the first took a block and went through.
    fn stopped_half(&self) -> bool {
        let list = self.list.as_ref().filter(|list| list.number() > 1);
        let Some(list) = list.filter(|_| (11..=14).contains(&self.number)) else {
            return false;
        };
        let first = list.change(0);
        let cell = self.before.cell(self.volume, first.lbn);
        let counted = cell == UNMAPPED || self.before.entry(cell).count > 0;
        let free = self.before.pbns().any(|pbn| !is_held(&self.before, pbn));
        counted && free && self.found(first.fingerprint).is_none()
    }
}
