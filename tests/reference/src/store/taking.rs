//! What backup and retire do alike: the checks of a slot to come, and, on the copy of the book in the
//! spare, step 3 for what a map had, records, and the slot at the end.

use super::check_day;
use crate::keeping::last_day;
use crate::layout::{Book, Header, Pbn, Record, Slot};
use crate::refusal::{require, Refusal};

/// Refusal 7: the day is above the volume's last backup, too.
pub(super) fn check_slot_day(book: &Book<&[u8]>, volume: u8, day: u16) -> Result<(), Refusal> {
    check_day(book, day)?;
    let previous = book.backups_of(volume).days.pop();
    require(previous.is_none_or(|previous| day > previous), Refusal::Day)
}

/// Refusals 9 and 10: there is a slot, and room for so many records.
pub(super) fn check_room(book: &Book<&[u8]>, records: usize) -> Result<(), Refusal> {
    let slots_used = book.header(Header::SlotsUsed);
    require(slots_used < book.sizes().slots, Refusal::SlotsFull)?;
    let records = usize::from(book.header(Header::RecordsUsed)) + records;
    let records_max = usize::from(book.sizes().records);
    require(records <= records_max, Refusal::JournalFull)
}

/// A slot of a volume under way.
pub(super) struct Taking<'s> {
    pub book: Book<&'s mut [u8]>,
    pub volume: u8,
    pub day: u16,
    /// The last day of the volume's previous backup, which names what is replaced now.
    pub expiry: u16,
}

impl<'s> Taking<'s> {
    /// On a copy of the book in the spare, which is long enough.
    pub fn start(book: &[u8], spare: &'s mut [u8], volume: u8, day: u16) -> Self {
        let copy = &mut spare[..book.len()];
        copy.copy_from_slice(book);
        let book = Book::over(copy);
        // Only in a damaged book has the first backup something to replace.
        let previous = book.backups_of(volume).days.pop().unwrap_or(0);
        Taking {
            expiry: last_day(previous, book.retention(volume)),
            book,
            volume,
            day,
        }
    }

    /// Step 3.
    pub fn lower(&mut self, before: Pbn) -> Result<(), Refusal> {
        let count = self.book.entry(before).count;
        require(count != 0, Refusal::BeforeUncounted)?;
        let expiry = self.expiry;
        self.book.edit_entry(before, |entry| {
            entry.count -= 1;
            entry.expiry = entry.expiry.max(expiry);
        });
        Ok(())
    }

    /// The map names the record's after, and the record is added.
    pub fn change(&mut self, record: Record) {
        self.book.set_cell(self.volume, record.lbn, record.after);
        let used = self.book.header(Header::RecordsUsed);
        self.book.set_record(usize::from(used), record);
        self.book.set_header(Header::RecordsUsed, used + 1);
    }

    /// Adds the slot of the last so many records and sets the day.
    pub fn finish(&mut self, kind: u8, number: u16) {
        let used = self.book.header(Header::SlotsUsed);
        let slot = Slot {
            volume: self.volume,
            kind,
            day: self.day,
            first: self.book.header(Header::RecordsUsed) - number,
            number,
        };
        self.book.set_slot(usize::from(used), slot);
        self.book.set_header(Header::SlotsUsed, used + 1);
        self.book.set_header(Header::Day, self.day);
    }
}
