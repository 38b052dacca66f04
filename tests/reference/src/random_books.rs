//! Books that no run of calls reaches: a book with a few of its fields changed. Most stay
//! in form. And such a book in layout 1.

use crate::layout::{
    Book, Entry, Header, Lbn, Pbn, Slot, EXPIRY_MAX, FREE, HEADER_BYTES, HELD, UNMAPPED,
    UNUSED_SLOT, VOLUMES,
};
use crate::layout_2;
use crate::prng::Prng;
use crate::store::settle_expiries;

/// Changes up to three fields of a book in form; now and then merges slots or flips a bit.
pub fn disturb(prng: &mut Prng, bytes: &mut [u8]) {
    let mut book = Book::over(&mut bytes[..]);
    if prng.once_in(3) {
        merge_slots(prng, &mut book);
    }
    for _ in 0..prng.between(0, 3) {
        disturb_field(prng, &mut book);
    }
    if prng.once_in(10) {
        let at = prng.index(bytes.len());
        bytes[at] ^= 1 << prng.below(8);
    }
}

/// A layout 2 book in layout 1, whether it is in form or not; of a count above 255 it has the low
/// byte. Another layout number stays. None for bytes that aren't as long as their sizes ask.
pub fn narrowed(bytes: &[u8]) -> Option<Vec<u8>> {
    if bytes.len() < HEADER_BYTES {
        return None;
    }
    let book = Book::over(bytes);
    let (sizes, layout) = (book.sizes(), book.header(Header::Layout));
    if sizes.book_bytes_in(2) != bytes.len() {
        return None;
    }
    let (front, rest) = bytes.split_at(36);
    let (entries, rest) = rest.split_at(21 * usize::from(sizes.blocks));
    let mut narrow = front.to_vec();
    for entry in entries.chunks_exact(21) {
        narrow.push(entry[0]);
        narrow.extend(&entry[2..]);
    }
    narrow.extend(rest);
    if layout == 2 {
        narrow[0] = 1;
    }
    Some(narrow)
}

fn disturb_field(prng: &mut Prng, book: &mut Book<&mut [u8]>) {
    match prng.below(12) {
        0 => disturb_header(prng, book),
        1 => {
            let days = prng.pick(&[0, 1, 3, 5_000, 5_001]);
            book.set_retention(prng.index(8) as u8, days);
        }
        2 => disturb_cell(prng, book),
        3 => disturb_slot(prng, book),
        4 => disturb_record(prng, book),
        5 | 6 => free_waiting(prng, book),
        7 => disturb_mapped(prng, book),
        8 if book.header(Header::Layout) > 2 => disturb_kind(prng, book),
        _ => disturb_entry(prng, book),
    }
}

fn any_block(prng: &mut Prng, book: &Book<&mut [u8]>) -> Pbn {
    Pbn(prng.between(0, book.sizes().blocks - 1))
}

/// A block or, now and then, unmapped or past the pool.
fn any_pbn(prng: &mut Prng, book: &Book<&mut [u8]>) -> Pbn {
    match prng.below(12) {
        0 => UNMAPPED,
        1 => Pbn(prng.pick(&[book.sizes().blocks, 65_534])),
        _ => any_block(prng, book),
    }
}

fn disturb_header(prng: &mut Prng, book: &mut Book<&mut [u8]>) {
    let fields = [
        Header::SlotsUsed,
        Header::RecordsUsed,
        Header::Day,
        Header::Day,
        Header::Cursor,
        Header::Cursor,
    ];
    let field = prng.pick(&fields);
    let value = book.header(field);
    let step = prng.between(1, 8);
    let moved = prng.pick(&[value.wrapping_add(step), value.wrapping_sub(step)]);
    book.set_header(field, moved);
}

fn disturb_cell(prng: &mut Prng, book: &mut Book<&mut [u8]>) {
    let volume = prng.index(usize::from(VOLUMES)) as u8;
    let lbn = Lbn(prng.between(0, book.sizes().lbns - 1));
    let pbn = any_pbn(prng, book);
    book.set_cell(volume, lbn, pbn);
}

fn disturb_slot(prng: &mut Prng, book: &mut Book<&mut [u8]>) {
    let index = prng.index(usize::from(book.sizes().slots));
    let step = prng.pick(&[1, 65_535]);
    book.edit_slot(index, |slot| match prng.below(4) {
        0 => slot.day = slot.day.wrapping_add(step),
        1 => slot.volume = prng.between(0, 8) as u8,
        2 => slot.kind = prng.pick(&[slot.kind ^ 1, 2, 255]),
        _ => slot.number = slot.number.wrapping_add(step),
    });
}

/// Makes a retirement of a slot or a backup of a retirement, and its records fit.
fn disturb_kind(prng: &mut Prng, book: &mut Book<&mut [u8]>) {
    let used = book.header(Header::SlotsUsed).min(book.sizes().slots);
    if used == 0 {
        return;
    }
    let any = prng.index(usize::from(used));
    let index = prng.pick(&[any, usize::from(used) - 1]);
    book.edit_slot(index, |slot| slot.kind ^= 1);
    let slot = book.slot(index);
    // An earlier change may have put the pair past the journal.
    let records = usize::from(book.sizes().records);
    for record in slot.records().filter(|&record| record < records) {
        let after = match slot.is_retirement() {
            true => UNMAPPED,
            false => any_block(prng, book),
        };
        book.edit_record(record, |record| record.after = after);
    }
}

fn disturb_record(prng: &mut Prng, book: &mut Book<&mut [u8]>) {
    let used = book.header(Header::RecordsUsed).min(book.sizes().records);
    let index = prng.index(usize::from(used.max(1)));
    let lbn = Lbn(prng.between(0, book.sizes().lbns));
    let pbn = any_pbn(prng, book);
    book.edit_record(index, |record| match prng.below(3) {
        0 => record.lbn = lbn,
        1 => record.before = pbn,
        _ => record.after = pbn,
    });
}

/// Frees a block that waits, whether or not its time has come.
fn free_waiting(prng: &mut Prng, book: &mut Book<&mut [u8]>) {
    let waits = |&pbn: &Pbn| {
        let entry = book.entry(pbn);
        entry.state == HELD && entry.count == 0
    };
    let waiting: Vec<Pbn> = book.pbns().filter(waits).collect();
    if !waiting.is_empty() {
        book.edit_entry(prng.pick(&waiting), Entry::set_free);
    }
}

/// Gives a block that a map names a count at one end, or one that a single cell of it takes.
fn disturb_mapped(prng: &mut Prng, book: &mut Book<&mut [u8]>) {
    let maps = (0..VOLUMES).flat_map(|volume| book.map(volume));
    let named: Vec<Pbn> = maps.filter(|&cell| cell != UNMAPPED).collect();
    if named.is_empty() {
        return;
    }
    let pbn = prng.pick(&named);
    // An earlier change may have put a cell past the pool.
    if pbn.0 < book.sizes().blocks {
        let count = prng.pick(&[0, 0, 1, u16::MAX, u16::MAX]);
        book.edit_entry(pbn, |entry| entry.count = count);
    }
}

fn disturb_entry(prng: &mut Prng, book: &mut Book<&mut [u8]>) {
    let pbn = any_block(prng, book);
    let other = any_block(prng, book);
    let fingerprint = book.entry(other).fingerprint;
    let day = book.header(Header::Day);
    book.edit_entry(pbn, |entry| match prng.below(6) {
        0 => entry.count = prng.pick(&[0, 1, 255, 256, 65_534, 65_535]),
        1 => entry.state = prng.pick(&[FREE, HELD, 2]),
        2 => entry.expiry = prng.pick(&[0, 1, EXPIRY_MAX, EXPIRY_MAX + 1]),
        3 => entry.expiry = prng.pick(&[day, entry.expiry.wrapping_add(1)]),
        _ => entry.fingerprint = fingerprint,
    });
}

/// Makes one slot of two backups that follow each other in a volume, so that an LBN may have more
/// than one record in it, and gives each block the expiry that audit asks for.
fn merge_slots(prng: &mut Prng, book: &mut Book<&mut [u8]>) {
    let mut slots: Vec<Slot> = book.used_slots().collect();
    let alike = |&index: &usize| {
        let (slot, next) = (slots[index], slots[index + 1]);
        (slot.volume, slot.kind) == (next.volume, next.kind)
    };
    let first: Vec<usize> = (0..slots.len().saturating_sub(1)).filter(alike).collect();
    if first.is_empty() {
        return;
    }
    let first = prng.pick(&first);
    let second = slots.remove(first + 1);
    slots[first].number += second.number;
    for (index, slot) in slots.iter().enumerate() {
        book.set_slot(index, *slot);
    }
    book.set_slot(slots.len(), UNUSED_SLOT);
    book.set_header(Header::SlotsUsed, slots.len() as u16);
    settle_expiries(book, layout_2::days_of(book.header(Header::Layout)));
}
