//! Retirements in the book after case d: each of their conditions of form broken alone, and the faults
//! that audit finds in a book with one.

use reference::layout::{Entry, Header, Lbn, Pbn, Record, Slot, BACKUP, RETIREMENT, UNMAPPED};
use reference::store::Fault;

use crate::audit_edits::{faulty, Faulty};
use crate::vector::Meant::{Refused2, Totals};
use crate::vector::{Edit, EditedBook, Meant};

/// Makes slot `index`, the last used, one of day 10 with a record from `first` on for each of these
/// cells of the volume's map, which stay.
fn set_slot(book: &mut EditedBook, (index, first): (u16, u16), slot: (u8, u8), lbns: &[u16]) {
    let (volume, kind) = slot;
    let number = lbns.len() as u16;
    for (&lbn, index) in lbns.iter().zip(first..) {
        let record = Record {
            lbn: Lbn(lbn),
            before: book.cell(volume, Lbn(lbn)),
            after: UNMAPPED,
        };
        book.set_record(index.into(), record);
    }
    let slot = Slot {
        volume,
        kind,
        day: 10,
        first,
        number,
    };
    book.set_slot(index.into(), slot);
    book.set_header(Header::SlotsUsed, index + 1);
    book.set_header(Header::RecordsUsed, first + number);
    book.set_header(Header::Day, 10);
}

/// The first slot and the first record that aren't used.
const NEXT: (u16, u16) = (4, 5);
/// Those after the retirement of volume 0.
const AFTER: (u16, u16) = (5, 7);

/// Retires volume 0, which has C and B, on day 10, as the call does. Its newest backup is of day 8.
fn retire(book: &mut EditedBook) {
    set_slot(book, NEXT, (0, RETIREMENT), &[0, 1]);
    for (lbn, pbn) in [(0, 2), (1, 1)] {
        book.set_cell(0, Lbn(lbn), UNMAPPED);
        book.edit_entry(Pbn(pbn), |entry| {
            entry.count = entry.count.saturating_sub(1);
            entry.expiry = 18;
        });
    }
}

pub fn edits() -> Vec<Edit> {
    let mut edits = kinds();
    edits.extend(afters());
    edits.extend(places());
    edits.extend(days());
    edits
}

fn kinds() -> Vec<Edit> {
    let mut edits = vec![
        Edit::new("retired", Totals, retire),
        Edit::new("retired-both", Totals, move |book| {
            retire(book);
            set_slot(book, AFTER, (1, RETIREMENT), &[3]);
        }),
        Edit::new("retired-without-backups", Totals, move |book| {
            book.set_retention(7, 1);
            set_slot(book, NEXT, (7, RETIREMENT), &[]);
        }),
        Edit::new("retired-not-enrolled", Refused2, move |book| {
            set_slot(book, NEXT, (7, RETIREMENT), &[]);
        }),
        Edit::new("retired-volume-8", Refused2, move |book| {
            set_slot(book, NEXT, (8, RETIREMENT), &[]);
        }),
    ];
    for kind in 0..4 {
        let meant = if kind > 1 { Refused2 } else { Totals };
        let name = format!("bare-slot-second-byte-{kind}");
        edits.push(Edit::new(name, meant, move |book| {
            set_slot(book, NEXT, (0, kind), &[]);
        }));
    }
    for kind in [2, 129, 255] {
        let name = format!("retired-second-byte-{kind}");
        edits.push(Edit::new(name, Refused2, move |book| {
            set_slot(book, NEXT, (0, kind), &[0, 1]);
        }));
    }
    edits
}

/// A record's after, in the slot of a retirement and in that of a backup.
fn afters() -> Vec<Edit> {
    let mut edits = vec![
        Edit::new("afters-unmapped-in-a-backup", Refused2, move |book| {
            set_slot(book, NEXT, (0, BACKUP), &[0, 1]);
        }),
        Edit::new("slot-2-retired", Totals, move |book| {
            book.edit_slot(2, |slot| slot.kind = RETIREMENT);
            book.edit_record(3, |record| record.after = UNMAPPED);
        }),
    ];
    for (index, after) in [(5, 0), (5, 4), (6, 3), (6, 65_534)] {
        let name = format!("retired-record-{index}-after-{after}");
        edits.push(Edit::new(name, Refused2, move |book| {
            retire(book);
            book.edit_record(index, |record| record.after = Pbn(after));
        }));
    }
    for (index, after) in [(5, 3), (6, 0)] {
        let name = format!("afters-unmapped-in-a-backup-but-{index}");
        edits.push(Edit::new(name, Refused2, move |book| {
            set_slot(book, NEXT, (0, BACKUP), &[0, 1]);
            book.edit_record(index, |record| record.after = Pbn(after));
        }));
    }
    for index in [0, 4] {
        let name = format!("retired-and-record-{index}-after-unmapped");
        edits.push(Edit::new(name, Refused2, move |book| {
            retire(book);
            book.edit_record(index, |record| record.after = UNMAPPED);
        }));
    }
    edits
}

/// A slot without records after that of a retirement, and a retirement before a backup.
fn places() -> Vec<Edit> {
    let followed: [(&str, u8, u8, Meant); 4] = [
        ("a-backup-of-another", 1, BACKUP, Totals),
        ("a-retirement-of-another", 1, RETIREMENT, Totals),
        ("its-backup", 0, BACKUP, Refused2),
        ("its-retirement", 0, RETIREMENT, Refused2),
    ];
    let mut edits = Vec::new();
    for (name, volume, kind, meant) in followed {
        let name = format!("retired-then-{name}");
        edits.push(Edit::new(name, meant, move |book| {
            retire(book);
            set_slot(book, AFTER, (volume, kind), &[]);
            book.edit_slot(5, |slot| slot.day = 11);
            book.set_header(Header::Day, 11);
        }));
    }
    edits.push(Edit::new("slot-0-retired", Refused2, move |book| {
        book.edit_slot(0, |slot| slot.kind = RETIREMENT);
        for index in 0..2 {
            book.edit_record(index, |record| record.after = UNMAPPED);
        }
    }));
    edits
}

/// The days of a retirement rise like a backup's; the last backup of volume 1 is of day 9.
fn days() -> Vec<Edit> {
    let values = [
        (0, 8, 10, Refused2),
        (0, 9, 10, Totals),
        (0, 10, 10, Totals),
        (0, 11, 10, Refused2),
        (1, 9, 10, Refused2),
        (1, 10, 10, Totals),
        (1, 60_000, 60_000, Totals),
    ];
    let edit = |(volume, day, header, meant)| {
        let name = format!("retired-{volume}-on-{day}-of-{header}");
        Edit::new(name, meant, move |book| {
            set_slot(book, NEXT, (volume, RETIREMENT), &[]);
            book.edit_slot(4, |slot| slot.day = day);
            book.set_header(Header::Day, header);
        })
    };
    values.into_iter().map(edit).collect()
}

/// With the faults that audit finds.
pub fn faults() -> Vec<Faulty> {
    let mut edits = replayed();
    edits.extend(expiries());
    edits.extend(freed());
    edits
}

fn replayed() -> Vec<Faulty> {
    let alone = &[Fault::Replay];
    vec![
        faulty("retired", &[], retire),
        // The audit asks that the maps are the records replayed, and no more of a retired volume.
        faulty("retired-and-its-map-left", &[], |book| {
            set_slot(book, NEXT, (0, RETIREMENT), &[]);
        }),
        faulty("retired-cells-left", alone, |book| {
            retire(book);
            for (lbn, pbn) in [(0, 2), (1, 1)] {
                book.set_cell(0, Lbn(lbn), Pbn(pbn));
                book.edit_entry(Pbn(pbn), |entry| entry.count += 1);
            }
        }),
        faulty(
            "retired-cell-left",
            &[Fault::Replay, Fault::Count],
            |book| {
                retire(book);
                book.set_cell(0, Lbn(1), Pbn(1));
            },
        ),
        faulty("retired-before-isnt-the-cell", alone, |book| {
            retire(book);
            book.edit_record(5, |record| record.before = Pbn(1));
            book.edit_entry(Pbn(2), |entry| entry.expiry = 0);
        }),
        faulty("retired-before-unmapped", alone, |book| {
            retire(book);
            book.edit_record(6, |record| record.before = UNMAPPED);
            book.edit_entry(Pbn(1), |entry| entry.expiry = 0);
        }),
        faulty("retired-count-left", &[Fault::Count], |book| {
            retire(book);
            book.edit_entry(Pbn(2), |entry| entry.count = 1);
        }),
    ]
}

fn expiries() -> Vec<Faulty> {
    let wrong = [
        ("below", 17),
        ("above", 19),
        ("from-its-own-day", 20),
        ("from-the-first-backup", 15),
        ("from-day-0", 10),
        ("lost", 0),
    ];
    let edit = |(name, expiry)| {
        let name = format!("retired-expiry-{name}");
        faulty(&name, &[Fault::Expiry], move |book| {
            retire(book);
            book.edit_entry(Pbn(2), |entry| entry.expiry = expiry);
        })
    };
    wrong.into_iter().map(edit).collect()
}

/// Block 2 is what backup 2, the newest, has at LBN 0; it isn't exempt, and kept to day 18.
fn freed() -> Vec<Faulty> {
    let alone: &'static [Fault] = &[Fault::FreeButNamed];
    let cases = [
        ("while-kept", 10, alone),
        ("on-its-last-day", 18, alone),
        ("on-the-day-after", 19, &[]),
    ];
    let edit = |(name, day, faults)| {
        let name = format!("retired-newest-freed-{name}");
        faulty(&name, faults, move |book| {
            retire(book);
            book.edit_entry(Pbn(2), Entry::set_free);
            book.set_header(Header::Day, day);
        })
    };
    cases.into_iter().map(edit).collect()
}
