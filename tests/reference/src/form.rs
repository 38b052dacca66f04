//! When a byte string is a book in form: the numbers of refusal 1 and 2.

use crate::layout::{
    Book, Entry, Header, Pbn, Slot, BACKUP, DAY_MAX, EXPIRY_MAX, FREE, HEADER_BYTES, HELD, LAYOUT,
    RETENTION_RANGE, RETIREMENT, UNMAPPED, UNUSED_RECORD, UNUSED_SLOT, VOLUMES,
};
use crate::refusal::{require, Refusal};

/// The book if it is in form, else refusal 1 or 2.
pub fn check(bytes: &[u8]) -> Result<Book<&[u8]>, Refusal> {
    check_in(LAYOUT, bytes)
}

/// The book if it is in form in this layout.
pub fn check_in(layout: u16, bytes: &[u8]) -> Result<Book<&[u8]>, Refusal> {
    require(fits_layout(layout, bytes), Refusal::Layout)?;
    let book = Book::over(bytes);
    require(in_form(&book), Refusal::Form)?;
    Ok(book)
}

/// Length, layout number and sizes keep to the layout.
fn fits_layout(layout: u16, bytes: &[u8]) -> bool {
    if bytes.len() < HEADER_BYTES {
        return false;
    }
    let book = Book::over(bytes);
    book.header(Header::Layout) == layout
        && book.sizes().in_range()
        && book.sizes().book_bytes_in(layout) == bytes.len()
}

fn in_form(book: &Book<&[u8]>) -> bool {
    header_in_form(book)
        && retentions_in_form(book)
        && book.pbns().all(|pbn| entry_in_form(&book.entry(pbn)))
        && maps_in_form(book)
        && records_in_form(book)
        && slots_in_form(book)
        && slot_days_in_form(book)
        && slot_pairs_in_form(book)
        && afters_in_form(book)
        && retirements_end_volumes(book)
}

fn header_in_form(book: &Book<&[u8]>) -> bool {
    let sizes = book.sizes();
    book.header(Header::SlotsUsed) <= sizes.slots
        && book.header(Header::RecordsUsed) <= sizes.records
        && book.header(Header::Day) <= DAY_MAX
        && book.header(Header::Cursor) < sizes.blocks
        && book.header(Header::Zero) == 0
}

fn retentions_in_form(book: &Book<&[u8]>) -> bool {
    (0..VOLUMES).all(|volume| {
        let retention = book.retention(volume);
        retention == 0 || RETENTION_RANGE.contains(&retention)
    })
}

fn entry_in_form(entry: &Entry) -> bool {
    let state_holds = match entry.state {
        FREE => entry.count == 0 && entry.fingerprint.iter().all(|&byte| byte == 0),
        HELD => true,
        _ => false,
    };
    state_holds && entry.expiry <= EXPIRY_MAX
}

fn names_block(book: &Book<&[u8]>, pbn: Pbn) -> bool {
    pbn.0 < book.sizes().blocks
}

fn maps_in_form(book: &Book<&[u8]>) -> bool {
    (0..VOLUMES).all(|volume| {
        let map = book.map(volume);
        map.iter()
            .all(|&cell| cell == UNMAPPED || names_block(book, cell))
    })
}

fn records_in_form(book: &Book<&[u8]>) -> bool {
    let used = usize::from(book.header(Header::RecordsUsed));
    (0..usize::from(book.sizes().records)).all(|index| {
        let record = book.record(index);
        if index >= used {
            return record == UNUSED_RECORD;
        }
        record.lbn.0 < book.sizes().lbns
            && (record.before == UNMAPPED || names_block(book, record.before))
            && (record.after == UNMAPPED || names_block(book, record.after))
    })
}

fn slots_in_form(book: &Book<&[u8]>) -> bool {
    let used = usize::from(book.header(Header::SlotsUsed));
    (0..usize::from(book.sizes().slots)).all(|index| {
        let slot = book.slot(index);
        if index >= used {
            return slot == UNUSED_SLOT;
        }
        slot.volume < VOLUMES
            && book.retention(slot.volume) != 0
            && slot.kind <= last_kind(book.header(Header::Layout))
    })
}

/// There are retirements from layout 3 on.
fn last_kind(layout: u16) -> u8 {
    match layout {
        1 | 2 => BACKUP,
        _ => RETIREMENT,
    }
}

/// Used slots' days never fall, rise strictly within a volume, don't pass the header's.
fn slot_days_in_form(book: &Book<&[u8]>) -> bool {
    let slots: Vec<Slot> = book.used_slots().collect();
    let rise_within = |volume| {
        let slots = book.used_slots_of(volume);
        slots.windows(2).all(|pair| pair[0].day < pair[1].day)
    };
    slots.windows(2).all(|pair| pair[0].day <= pair[1].day)
        && slots
            .iter()
            .all(|slot| slot.day <= book.header(Header::Day))
        && (0..VOLUMES).all(rise_within)
}

/// The first pair starts at 0, each next where the last ended, the last ends at U.
fn slot_pairs_in_form(book: &Book<&[u8]>) -> bool {
    let mut end = 0;
    for slot in book.used_slots() {
        if slot.records().start != end {
            return false;
        }
        end = slot.records().end;
    }
    end == usize::from(book.header(Header::RecordsUsed))
}

/// A record's after is unmapped exactly when its slot is a retirement. The pairs are in form.
fn afters_in_form(book: &Book<&[u8]>) -> bool {
    book.used_slots().all(|slot| {
        let mut records = slot.records().map(|index| book.record(index));
        records.all(|record| (record.after == UNMAPPED) == slot.is_retirement())
    })
}

/// No slot of a volume follows its retirement.
fn retirements_end_volumes(book: &Book<&[u8]>) -> bool {
    (0..VOLUMES).all(|volume| {
        let slots = book.used_slots_of(volume);
        slots.windows(2).all(|pair| !pair[0].is_retirement())
    })
}
