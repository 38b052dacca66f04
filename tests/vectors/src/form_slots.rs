//! Backup slots: each condition of form broken alone, and both ends of each range.

use reference::layout::{Header, Slot, UNUSED_RECORD, UNUSED_SLOT};

use crate::vector::Meant::{Refused2, Totals};
use crate::vector::{Edit, EditedBook, Meant};

pub fn edits() -> Vec<Edit> {
    let mut edits = volumes();
    edits.extend(days());
    edits.extend(pairs());
    edits.extend(second_bytes());
    edits.extend(unused());
    edits.extend(without_slots());
    edits
}

fn volumes() -> Vec<Edit> {
    let mut edits = Vec::new();
    for index in [0, 3] {
        for volume in [2, 7, 8, 128, 255] {
            let name = format!("slot-{index}-of-volume-{volume}");
            edits.push(Edit::new(name, Refused2, move |book| {
                book.edit_slot(index, |slot| slot.volume = volume);
            }));
        }
        let name = format!("slot-{index}-of-volume-7-enrolled");
        edits.push(Edit::new(name, Totals, move |book| {
            book.set_retention(7, 1);
            book.edit_slot(index, |slot| slot.volume = 7);
        }));
    }
    edits
}

/// The days of the four used slots, of volumes 0, 1, 0, 1, and the header's day.
const DAYS: [(&str, [u16; 4], u16, Meant); 12] = [
    ("days-from-0", [0, 0, 1, 1], 1, Totals),
    ("days-to-60000", [5, 6, 59_999, 60_000], 60_000, Totals),
    ("days-equal-across", [5, 5, 8, 8], 8, Totals),
    ("days-equal-next", [5, 8, 8, 9], 9, Totals),
    ("days-fall-first", [6, 5, 8, 9], 9, Refused2),
    ("days-fall-between", [5, 8, 7, 9], 9, Refused2),
    ("days-fall-last", [5, 6, 9, 8], 9, Refused2),
    ("days-equal-in-volume-0", [8, 8, 8, 9], 9, Refused2),
    ("days-equal-in-volume-1", [5, 9, 9, 9], 9, Refused2),
    ("days-equal-0-in-volume", [0, 0, 0, 1], 1, Refused2),
    ("days-pass-header", [5, 6, 8, 10], 9, Refused2),
    ("days-above-60000", [5, 6, 8, 60_001], 60_000, Refused2),
];

fn days() -> Vec<Edit> {
    let edit = |(name, days, header, meant): (&str, [u16; 4], u16, Meant)| {
        Edit::new(name, meant, move |book| {
            for (index, day) in days.into_iter().enumerate() {
                book.edit_slot(index, |slot| slot.day = day);
            }
            book.set_header(Header::Day, header);
        })
    };
    DAYS.into_iter().map(edit).collect()
}

type Pair = (u16, u16);

/// The pairs of the four used slots; five records are used.
const PAIRS: [(&str, [Pair; 4], Meant); 13] = [
    ("pairs-none-first", [(0, 0), (0, 3), (3, 1), (4, 1)], Totals),
    (
        "pairs-none-between",
        [(0, 2), (2, 0), (2, 2), (4, 1)],
        Totals,
    ),
    ("pairs-none-last", [(0, 2), (2, 1), (3, 2), (5, 0)], Totals),
    ("pairs-all-first", [(0, 5), (5, 0), (5, 0), (5, 0)], Totals),
    ("pairs-all-last", [(0, 0), (0, 0), (0, 0), (0, 5)], Totals),
    (
        "pairs-start-at-1",
        [(1, 1), (2, 1), (3, 1), (4, 1)],
        Refused2,
    ),
    ("pairs-gap", [(0, 2), (3, 0), (3, 1), (4, 1)], Refused2),
    ("pairs-overlap", [(0, 2), (1, 2), (3, 1), (4, 1)], Refused2),
    ("pairs-swapped", [(2, 1), (0, 2), (3, 1), (4, 1)], Refused2),
    (
        "pairs-end-before",
        [(0, 2), (2, 1), (3, 1), (4, 0)],
        Refused2,
    ),
    (
        "pairs-end-after",
        [(0, 2), (2, 1), (3, 1), (4, 2)],
        Refused2,
    ),
    (
        "pairs-last-apart",
        [(0, 2), (2, 1), (3, 1), (5, 0)],
        Refused2,
    ),
    (
        "pairs-wrapped",
        [(0, 2), (2, 65_535), (1, 3), (4, 1)],
        Refused2,
    ),
];

fn pairs() -> Vec<Edit> {
    let edit = |(name, pairs, meant): (&str, [Pair; 4], Meant)| {
        Edit::new(name, meant, move |book| {
            for (index, (first, number)) in pairs.into_iter().enumerate() {
                book.edit_slot(index, |slot| {
                    slot.first = first;
                    slot.number = number;
                });
            }
        })
    };
    let mut edits: Vec<Edit> = PAIRS.into_iter().map(edit).collect();
    edits.push(Edit::new("pairs-end-wrapped", Refused2, move |book| {
        book.edit_slot(2, |slot| slot.number = 65_535);
        book.edit_slot(3, |slot| (slot.first, slot.number) = (2, 3));
    }));
    edits.push(Edit::new("pairs-end-at-65536", Refused2, move |book| {
        use_no_records(book);
        book.edit_slot(2, |slot| slot.number = 65_535);
        book.edit_slot(3, |slot| (slot.first, slot.number) = (65_535, 1));
    }));
    for (used, name) in [(4, "pairs-end-after-used"), (6, "pairs-end-before-used")] {
        edits.push(Edit::new(name, Refused2, move |book| {
            book.set_record(4, UNUSED_RECORD);
            book.set_header(Header::RecordsUsed, used);
        }));
    }
    edits
}

fn second_bytes() -> Vec<Edit> {
    let edit = |(index, byte)| {
        let name = format!("slot-{index}-second-byte-{byte}");
        Edit::new(name, Refused2, move |book| {
            book.edit_slot(index, |slot| slot.kind = byte);
        })
    };
    let ones = (0..6).map(|index| (index, 1));
    ones.chain([(3, 2), (3, 255), (4, 2)]).map(edit).collect()
}

type SlotEdit = (&'static str, fn(&mut Slot));

fn unused() -> Vec<Edit> {
    let fields: [SlotEdit; 6] = [
        ("volume", |slot| slot.volume = 1),
        ("day", |slot| slot.day = 9),
        ("day-high", |slot| slot.day = 256),
        ("first", |slot| slot.first = 5),
        ("number", |slot| slot.number = 1),
        ("number-high", |slot| slot.number = 256),
    ];
    let mut edits = Vec::new();
    for index in [4, 5] {
        for (field, edit) in fields {
            let name = format!("unused-slot-{index}-{field}");
            edits.push(Edit::new(name, Refused2, move |book| {
                book.edit_slot(index, edit);
            }));
        }
    }
    edits
}

fn clear_slots(book: &mut EditedBook) {
    for index in 0..6 {
        book.set_slot(index, UNUSED_SLOT);
    }
    book.set_header(Header::SlotsUsed, 0);
}

fn clear_records(book: &mut EditedBook) {
    for index in 0..8 {
        book.set_record(index, UNUSED_RECORD);
    }
}

/// All backups without changes.
fn use_no_records(book: &mut EditedBook) {
    clear_records(book);
    book.set_header(Header::RecordsUsed, 0);
    for index in 0..4 {
        book.edit_slot(index, |slot| (slot.first, slot.number) = (0, 0));
    }
}

fn without_slots() -> Vec<Edit> {
    vec![
        Edit::new("no-slots-no-records", Totals, move |book| {
            clear_slots(book);
            clear_records(book);
            book.set_header(Header::RecordsUsed, 0);
        }),
        Edit::new("no-slots-but-records", Refused2, clear_slots),
        Edit::new("no-slots-but-a-record-used", Refused2, move |book| {
            clear_slots(book);
            clear_records(book);
            book.set_header(Header::RecordsUsed, 1);
        }),
        Edit::new("slots-without-records", Totals, use_no_records),
        Edit::new("slots-of-records-not-there", Refused2, move |book| {
            clear_records(book);
            book.set_header(Header::RecordsUsed, 0);
        }),
    ]
}
