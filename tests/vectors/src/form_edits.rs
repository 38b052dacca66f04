//! Header, retentions, entries, maps and records: each condition of form broken alone, and
//! both ends of each range.

use reference::layout::{Header, Lbn, Pbn, Slot, BACKUP, FREE, HELD, UNUSED_RECORD};

use crate::vector::Meant::{Refused2, Totals};
use crate::vector::{Edit, EditedBook, Meant};

pub fn edits() -> Vec<Edit> {
    let mut edits = vec![Edit::new("after-d", Totals, move |_| {})];
    edits.extend(header_values());
    edits.extend(full_books());
    edits.extend(retentions());
    edits.extend(entries());
    edits.extend(cells());
    edits.extend(records());
    edits.extend(unused_records());
    edits
}

fn header_values() -> Vec<Edit> {
    let values = [
        (Header::Day, 8, Refused2),
        (Header::Day, 60_000, Totals),
        (Header::Day, 60_001, Refused2),
        (Header::Day, 65_535, Refused2),
        (Header::Cursor, 0, Totals),
        (Header::Cursor, 3, Totals),
        (Header::Cursor, 4, Refused2),
        (Header::Cursor, 65_535, Refused2),
        (Header::Zero, 1, Refused2),
        (Header::Zero, 256, Refused2),
        (Header::SlotsUsed, 65_535, Refused2),
        (Header::RecordsUsed, 0, Refused2),
        (Header::RecordsUsed, 65_535, Refused2),
    ];
    let edit = |(field, value, meant)| {
        let name = format!("header-{field:?}-{value}").to_lowercase();
        Edit::new(name, meant, move |book| book.set_header(field, value))
    };
    values.into_iter().map(edit).collect()
}

/// All slots used, the last two by backups without changes.
fn use_all_slots(book: &mut EditedBook) {
    for (index, volume, day) in [(4, 0, 9), (5, 1, 10)] {
        book.edit_slot(index, |slot| {
            slot.volume = volume;
            slot.day = day;
            slot.first = 5;
        });
    }
    book.set_header(Header::Day, 10);
    book.set_header(Header::SlotsUsed, 6);
}

/// One slot more than there are, where the first records look like a slot in form.
fn use_record_as_slot(book: &mut EditedBook) {
    let slots = [(0, 0), (0, 1), (1, 2), (1, 3), (2, 3), (2, 3)];
    for (index, (day, first)) in slots.into_iter().enumerate() {
        let next = slots.get(index + 1).map_or(3, |&(_, next)| next);
        let slot = Slot {
            volume: (index % 2) as u8,
            kind: BACKUP,
            day,
            first,
            number: next - first,
        };
        book.set_slot(index, slot);
    }
    book.edit_record(0, |record| (record.before, record.after) = (Pbn(3), Pbn(3)));
    book.edit_record(1, |record| record.lbn = Lbn(0));
    for index in 3..5 {
        book.set_record(index, UNUSED_RECORD);
    }
    book.set_header(Header::RecordsUsed, 3);
    book.set_header(Header::Day, 3);
    book.set_header(Header::SlotsUsed, 7);
}

/// The last slot's pair and the header reach to this number of records.
fn use_records(book: &mut EditedBook, used: u16) {
    book.edit_slot(3, |slot| slot.number = used - slot.first);
    book.set_header(Header::RecordsUsed, used);
}

fn full_books() -> Vec<Edit> {
    vec![
        Edit::new("slots-used-all", Totals, use_all_slots),
        Edit::new("slots-used-one-above", Refused2, move |book| {
            use_all_slots(book);
            book.set_header(Header::SlotsUsed, 7);
        }),
        Edit::new("slots-used-one-above-alike", Refused2, use_record_as_slot),
        Edit::new("slots-used-all-alike", Totals, move |book| {
            use_record_as_slot(book);
            book.set_header(Header::SlotsUsed, 6);
        }),
        Edit::new("records-used-all", Totals, move |book| use_records(book, 8)),
        Edit::new("records-used-one-above", Refused2, move |book| {
            use_records(book, 9);
        }),
    ]
}

fn retentions() -> Vec<Edit> {
    let values = [
        (0, 0, Refused2),
        (0, 1, Totals),
        (0, 5_000, Totals),
        (0, 5_001, Refused2),
        (0, 65_535, Refused2),
        (7, 0, Totals),
        (7, 1, Totals),
        (7, 5_000, Totals),
        (7, 5_001, Refused2),
    ];
    let edit = |(volume, days, meant)| {
        let name = format!("retention-of-{volume}-{days}");
        Edit::new(name, meant, move |book| book.set_retention(volume, days))
    };
    values.into_iter().map(edit).collect()
}

fn entries() -> Vec<Edit> {
    let expiries = [
        (0, Totals),
        (65_000, Totals),
        (65_001, Refused2),
        (65_535, Refused2),
    ];
    let mut edits = Vec::new();
    for pbn in [0, 3] {
        for (expiry, meant) in expiries {
            let name = format!("expiry-of-{pbn}-{expiry}");
            edits.push(Edit::new(name, meant, move |book| {
                book.edit_entry(Pbn(pbn), |entry| entry.expiry = expiry);
            }));
        }
        for state in [2, 255] {
            let name = format!("state-of-{pbn}-{state}");
            edits.push(Edit::new(name, Refused2, move |book| {
                book.edit_entry(Pbn(pbn), |entry| entry.state = state);
            }));
        }
    }
    for byte in [0, 7, 15] {
        let name = format!("free-with-fingerprint-byte-{byte}");
        edits.push(Edit::new(name, Refused2, move |book| {
            book.edit_entry(Pbn(3), |entry| entry.fingerprint[byte] = 1);
        }));
    }
    edits.extend(entry_states());
    edits
}

fn entry_states() -> Vec<Edit> {
    let edited = |name, meant, pbn, count, state, byte: u8| {
        Edit::new(name, meant, move |book| {
            book.edit_entry(Pbn(pbn), |entry| {
                entry.count = count;
                entry.state = state;
                entry.fingerprint = [byte; 16];
            });
        })
    };
    vec![
        edited("free-with-count-1", Refused2, 3, 1, FREE, 0),
        edited("free-with-count-256", Refused2, 3, 256, FREE, 0),
        edited("free-with-count-65535", Refused2, 3, 65_535, FREE, 0),
        edited("free-with-fingerprint", Refused2, 0, 0, FREE, b'A'),
        edited("held-with-count-255", Totals, 0, 255, HELD, b'A'),
        edited("held-with-count-256", Totals, 0, 256, HELD, b'A'),
        edited("held-with-count-65535", Totals, 0, 65_535, HELD, b'A'),
        edited("held-with-zero-fingerprint", Totals, 1, 2, HELD, 0),
        edited("held-last-with-zero-fingerprint", Totals, 3, 0, HELD, 0),
        edited("held-with-full-fingerprint", Totals, 3, 1, HELD, 255),
        edited("held-with-equal-fingerprint", Totals, 3, 1, HELD, b'A'),
        edited("freed-first", Totals, 0, 0, FREE, 0),
        edited("freed-though-mapped", Totals, 2, 0, FREE, 0),
    ]
}

/// PBNs at the ends of what a cell or a before may be.
const PBNS: [(u16, Meant); 5] = [
    (0, Totals),
    (3, Totals),
    (4, Refused2),
    (65_534, Refused2),
    (65_535, Totals),
];

fn cells() -> Vec<Edit> {
    let mut edits = Vec::new();
    for (volume, lbn) in [(0, 0), (0, 3), (7, 0), (7, 3)] {
        for (pbn, meant) in PBNS {
            let name = format!("cell-{volume}-{lbn}-is-{pbn}");
            edits.push(Edit::new(name, meant, move |book| {
                book.set_cell(volume, Lbn(lbn), Pbn(pbn));
            }));
        }
    }
    edits
}

fn records() -> Vec<Edit> {
    let mut edits = Vec::new();
    for index in [0, 4] {
        for (pbn, meant) in PBNS {
            let name = format!("record-{index}-before-{pbn}");
            edits.push(Edit::new(name, meant, move |book| {
                book.edit_record(index, |record| record.before = Pbn(pbn));
            }));
            let meant = if pbn == 65_535 { Refused2 } else { meant };
            let name = format!("record-{index}-after-{pbn}");
            edits.push(Edit::new(name, meant, move |book| {
                book.edit_record(index, |record| record.after = Pbn(pbn));
            }));
        }
        for (lbn, meant) in [(0, Totals), (3, Totals), (4, Refused2), (65_535, Refused2)] {
            let name = format!("record-{index}-lbn-{lbn}");
            edits.push(Edit::new(name, meant, move |book| {
                book.edit_record(index, |record| record.lbn = Lbn(lbn));
            }));
        }
    }
    edits
}

fn unused_records() -> Vec<Edit> {
    let mut edits = Vec::new();
    for index in [5, 7] {
        for value in [1, 256, 65_535] {
            let name = |field| format!("unused-record-{index}-{field}-{value}");
            edits.push(Edit::new(name("lbn"), Refused2, move |book| {
                book.edit_record(index, |record| record.lbn = Lbn(value));
            }));
            edits.push(Edit::new(name("before"), Refused2, move |book| {
                book.edit_record(index, |record| record.before = Pbn(value));
            }));
            edits.push(Edit::new(name("after"), Refused2, move |book| {
                book.edit_record(index, |record| record.after = Pbn(value));
            }));
        }
    }
    edits
}
