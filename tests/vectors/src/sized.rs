//! Books and other inputs at the ends of what tally takes: by sizes and by length.

use reference::layout::{
    self, Book, Entry, Header, Lbn, Pbn, Record, Sizes, Slot, BACKUP, HELD, RETIREMENT, UNMAPPED,
};
use reference::refusal::Refusal;
use reference::tally::INPUT_MAX;

use crate::vector::Meant::{Refused1, Refused2, Totals};
use crate::vector::Vector;

const fn sizes(blocks: u16, lbns: u16, slots: u16, records: u16) -> Sizes {
    Sizes {
        blocks,
        lbns,
        slots,
        records,
    }
}

const SMALLEST: Sizes = sizes(1, 1, 1, 1);
const LARGEST: Sizes = sizes(4_096, 1_024, 1_024, 16_384);
/// Books of 65,535, 65,536 and 65,537 bytes.
const UNDER: Sizes = sizes(1_325, 1_000, 1_000, 2_279);
const LONGEST: Sizes = sizes(1_324, 1_000, 999, 2_284);
const OVER: Sizes = sizes(1_325, 1_000, 1_001, 2_278);
/// The last block at the last LBN of the largest book, in the place of itself.
const LAST: Record = Record {
    lbn: Lbn(1_023),
    before: Pbn(4_095),
    after: Pbn(4_095),
};
/// As many blocks as a book of at most 65,536 bytes has room for.
const MOST_BLOCKS: Sizes = sizes(3_117, 1, 1, 1);

pub fn vectors() -> Vec<Vector> {
    let mut vectors = books();
    vectors.extend(long_inputs());
    for (name, book, _) in long_books().into_iter().chain(long_retired()) {
        vectors.push(Vector::new(name, book, Refused1));
    }
    vectors.extend(inputs_of_one_byte());
    vectors
}

/// A fresh book with every third block held and every fifth waiting.
fn book_of(sizes: Sizes) -> Vec<u8> {
    let mut bytes = fresh(sizes);
    let mut book = Book::over(&mut bytes[..]);
    for pbn in (0..sizes.blocks).step_by(3) {
        book.edit_entry(Pbn(pbn), |entry| {
            entry.state = HELD;
            entry.count = if pbn % 5 == 0 { 0 } else { pbn };
            entry.fingerprint[..2].copy_from_slice(&pbn.to_le_bytes());
        });
    }
    bytes
}

fn fresh(sizes: Sizes) -> Vec<u8> {
    let mut bytes = vec![0; sizes.book_bytes()];
    layout::format(&mut bytes, sizes);
    bytes
}

/// All blocks held with this count.
fn all_held(sizes: Sizes, count: u16) -> Vec<u8> {
    let mut bytes = fresh(sizes);
    let mut book = Book::over(&mut bytes[..]);
    for pbn in book.pbns() {
        let entry = Entry {
            count,
            state: HELD,
            expiry: 65_000,
            fingerprint: [255; 16],
        };
        book.set_entry(pbn, entry);
    }
    bytes
}

/// The longest page that tally prints: 65 bytes.
fn longest_page() -> Vec<u8> {
    let mut bytes = all_held(MOST_BLOCKS, 65_535);
    let mut book = Book::over(&mut bytes[..]);
    for pbn in (0..2_000).map(Pbn) {
        book.edit_entry(pbn, |entry| {
            entry.count = 0;
            if pbn.0 < 1_000 {
                entry.set_free();
            }
        });
    }
    bytes
}

/// The largest book with all slots and records used, its numbers at the ends of their ranges. The last
/// slot is of this kind, and its records but the last are, too.
fn largest_used(kind: u8, last: Record) -> Vec<u8> {
    let mut bytes = all_held(LARGEST, 65_535);
    let mut book = Book::over(&mut bytes[..]);
    book.set_header(Header::SlotsUsed, 1_024);
    book.set_header(Header::RecordsUsed, 16_384);
    book.set_header(Header::Day, 60_000);
    book.set_header(Header::Cursor, 4_095);
    book.set_retention(7, 5_000);
    for index in 0..1_024 {
        let slot = Slot {
            volume: 7,
            kind: if index < 1_023 { BACKUP } else { kind },
            day: 58 * index,
            first: 16 * index,
            number: 16,
        };
        book.set_slot(index.into(), slot);
    }
    for index in 0..16_383 {
        book.set_record(index, LAST);
    }
    book.set_record(16_383, last);
    if kind == RETIREMENT {
        for index in 16_368..16_383 {
            book.edit_record(index, |record| record.after = UNMAPPED);
        }
    }
    bytes
}

fn books() -> Vec<Vector> {
    assert_eq!(SMALLEST.book_bytes(), 87);
    assert_eq!(UNDER.book_bytes(), INPUT_MAX - 1);
    assert_eq!(LONGEST.book_bytes(), INPUT_MAX);
    let mut last_wrong = book_of(LONGEST);
    *last_wrong.last_mut().expect("not empty") = 1;
    vec![
        Vector::new("smallest", fresh(SMALLEST), Totals),
        Vector::new("smallest-held", all_held(SMALLEST, 1), Totals),
        Vector::new("bytes-65535", book_of(UNDER), Totals),
        Vector::new("bytes-65536", book_of(LONGEST), Totals),
        Vector::new("bytes-65536-last-byte-wrong", last_wrong, Refused2),
        Vector::new("most-blocks", book_of(MOST_BLOCKS), Totals),
        Vector::new("most-blocks-free", fresh(MOST_BLOCKS), Totals),
        Vector::new("most-references", all_held(MOST_BLOCKS, 65_535), Totals),
        Vector::new("longest-page", longest_page(), Totals),
        Vector::new("most-waiting", all_held(MOST_BLOCKS, 0), Totals),
        Vector::new("most-lbns", book_of(sizes(2, 1_024, 1, 1)), Totals),
        Vector::new("most-slots", book_of(sizes(2, 1, 1_024, 1)), Totals),
        Vector::new("many-records", book_of(sizes(2, 1, 1, 10_900)), Totals),
    ]
}

fn long_inputs() -> Vec<Vector> {
    assert_eq!(OVER.book_bytes(), INPUT_MAX + 1);
    let after_d = reference::cases::after_d().book;
    let padded = |mut book: Vec<u8>, length: usize| {
        book.resize(length, 0);
        book
    };
    vec![
        Vector::new(
            "bytes-65536-and-one",
            padded(book_of(LONGEST), 65_537),
            Refused1,
        ),
        Vector::new("bytes-65537", book_of(OVER), Refused1),
        Vector::new("bytes-131072", padded(book_of(LONGEST), 131_072), Refused1),
        Vector::new("bytes-65816", padded(after_d, 65_536 + 280), Refused1),
    ]
}

/// Books of a right length that is above what tally takes, with what form says of them.
fn long_books() -> Vec<(&'static str, Vec<u8>, Result<(), Refusal>)> {
    let before_first = Record {
        before: Pbn(0),
        ..LAST
    };
    let after_no_block = Record {
        after: Pbn(4_096),
        ..LAST
    };
    vec![
        ("blocks-4096", fresh(sizes(4_096, 4, 6, 8)), Ok(())),
        ("records-16384", fresh(sizes(4, 4, 6, 16_384)), Ok(())),
        ("largest", book_of(LARGEST), Ok(())),
        ("largest-used", largest_used(BACKUP, LAST), Ok(())),
        (
            "largest-used-last-before-0",
            largest_used(BACKUP, before_first),
            Ok(()),
        ),
        (
            "largest-used-last-after-n",
            largest_used(BACKUP, after_no_block),
            Err(Refusal::Form),
        ),
    ]
}

/// The last slot a retirement, and one whose last record isn't as the others.
fn long_retired() -> Vec<(&'static str, Vec<u8>, Result<(), Refusal>)> {
    let after_unmapped = Record {
        after: UNMAPPED,
        ..LAST
    };
    vec![
        (
            "largest-used-last-unmapped",
            largest_used(BACKUP, after_unmapped),
            Err(Refusal::Form),
        ),
        (
            "largest-retired",
            largest_used(RETIREMENT, after_unmapped),
            Ok(()),
        ),
        (
            "largest-retired-last-mapped",
            largest_used(RETIREMENT, LAST),
            Err(Refusal::Form),
        ),
    ]
}

fn inputs_of_one_byte() -> Vec<Vector> {
    let mut vectors = Vec::new();
    for byte in [0, 1, 255] {
        for length in [87, 280, INPUT_MAX] {
            let name = format!("only-{byte}-{length}");
            vectors.push(Vector::new(name, vec![byte; length], Refused1));
        }
    }
    vectors
}

#[cfg(test)]
mod tests {
    use super::{long_books, long_retired};
    use reference::form;

    #[test]
    fn form_says_of_each_long_book_what_is_meant() {
        for (name, book, meant) in long_books().into_iter().chain(long_retired()) {
            assert_eq!(form::check(&book).map(|_| ()), meant, "{name}");
        }
    }
}
