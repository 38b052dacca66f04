//! Books in form that audit refuses, for each fault, and those beside them that it passes.

use reference::cases::{fingerprint, two_records_in_a_slot};
use reference::layout::{Book, Entry, Header, Lbn, Pbn, HELD, UNMAPPED};
use reference::store::Fault;

use crate::retired;
use crate::vector::Meant::Totals;
use crate::vector::{Edit, EditedBook, Vector};

/// An edit with the faults that it makes.
pub type Faulty = (Edit, &'static [Fault]);

pub fn edits() -> Vec<Faulty> {
    let mut edits = replay();
    edits.extend(counts());
    edits.extend(expiries());
    edits.extend(fingerprints());
    edits.extend(freed());
    edits.extend(retired::faults());
    edits
}

pub(crate) fn faulty(
    name: &str,
    faults: &'static [Fault],
    change: impl Fn(&mut EditedBook) + Send + Sync + 'static,
) -> Faulty {
    (Edit::new(format!("audit-{name}"), Totals, change), faults)
}

fn set_cells(book: &mut EditedBook, cells: [(u8, u16, u16); 2]) {
    for (volume, lbn, pbn) in cells {
        book.set_cell(volume, Lbn(lbn), Pbn(pbn));
    }
}

fn set_expiry(book: &mut EditedBook, pbn: u16, expiry: u16) {
    book.edit_entry(Pbn(pbn), |entry| entry.expiry = expiry);
}

fn replay() -> Vec<Faulty> {
    let alone = &[Fault::Replay];
    vec![
        faulty("two-cells-swapped", alone, |book| {
            set_cells(book, [(0, 0, 1), (0, 1, 2)]);
        }),
        faulty("cell-of-another-volume", alone, |book| {
            set_cells(book, [(1, 3, UNMAPPED.0), (7, 3, 1)]);
        }),
        faulty("before-of-an-unmapped-cell", alone, |book| {
            book.edit_record(1, |record| record.before = Pbn(3));
            // The first backup of its volume has none before it to wait for.
            set_expiry(book, 3, 10);
        }),
        faulty("before-isnt-the-cell", alone, |book| {
            book.edit_record(4, |record| record.before = Pbn(2));
            set_expiry(book, 2, 9);
        }),
        faulty("after-isnt-met", alone, |book| {
            book.edit_record(2, |record| record.after = Pbn(2));
        }),
        faulty("cell-unmapped", &[Fault::Replay, Fault::Count], |book| {
            book.set_cell(0, Lbn(1), UNMAPPED)
        }),
    ]
}

fn counts() -> Vec<Faulty> {
    let wrong = [
        ("above", 2, 2),
        ("below", 1, 1),
        ("of-waiting", 0, 1),
        ("above-by-256", 1, 258),
        ("256-of-waiting", 0, 256),
        ("65535", 1, 65_535),
    ];
    let edit = |(name, pbn, count)| {
        let name = format!("count-{name}");
        faulty(&name, &[Fault::Count], move |book| {
            book.edit_entry(Pbn(pbn), |entry| entry.count = count);
        })
    };
    wrong.into_iter().map(edit).collect()
}

fn expiries() -> Vec<Faulty> {
    let wrong = [
        ("overwritten", 0, 9),
        ("below", 0, 14),
        ("above", 0, 16),
        ("from-the-backup-that-replaces", 0, 18),
        ("from-day-0", 0, 10),
        ("lost", 0, 0),
        ("without-record", 1, 1),
        ("of-free", 3, 1),
    ];
    let edit = |(name, pbn, expiry)| {
        let name = format!("expiry-{name}");
        faulty(&name, &[Fault::Expiry], move |book| {
            set_expiry(book, pbn, expiry);
        })
    };
    wrong.into_iter().map(edit).collect()
}

fn fingerprints() -> Vec<Faulty> {
    let alone = &[Fault::Fingerprint];
    vec![
        faulty("equal-fingerprints", alone, |book| {
            book.edit_entry(Pbn(2), |entry| entry.fingerprint = fingerprint('B'));
        }),
        faulty("equal-fingerprint-of-waiting", alone, |book| {
            book.edit_entry(Pbn(0), |entry| entry.fingerprint = fingerprint('C'));
        }),
        faulty("equal-zero-fingerprints", alone, |book| {
            for pbn in [0, 3] {
                book.edit_entry(Pbn(pbn), |entry| {
                    (entry.state, entry.fingerprint) = (HELD, [0; 16]);
                });
            }
        }),
        faulty("one-zero-fingerprint", &[], |book| {
            book.edit_entry(Pbn(0), |entry| entry.fingerprint = [0; 16]);
        }),
    ]
}

/// Block 0 is what backup 1 of volume 0, of day 5, has at LBN 0, kept to day 15.
fn freed() -> Vec<Faulty> {
    let alone = &[Fault::FreeButNamed];
    let freed_on = |day| {
        move |book: &mut EditedBook| {
            book.edit_entry(Pbn(0), Entry::set_free);
            book.set_header(Header::Day, day);
        }
    };
    let both = &[Fault::Count, Fault::FreeButNamed];
    vec![
        faulty("freed-while-kept", alone, freed_on(9)),
        faulty("freed-on-the-last-day-kept", alone, freed_on(15)),
        faulty("freed-on-the-day-after", &[], freed_on(16)),
        faulty("freed-while-layout-2-kept-it", &[], freed_on(18)),
        faulty("freed-in-the-current-map", both, |book| {
            book.edit_entry(Pbn(2), |entry| entry.count = 0);
            book.edit_entry(Pbn(2), Entry::set_free);
        }),
    ]
}

/// One LBN with two records in one slot, as it is and with each block that waits freed.
pub fn vectors() -> Vec<Vector> {
    let mut vectors = Vec::new();
    for freed in [None, Some(0), Some(2)] {
        let mut book = two_records_in_a_slot().book;
        let mut name = String::from("two-records-of-an-lbn");
        if let Some(pbn) = freed {
            Book::over(&mut book[..]).edit_entry(Pbn(pbn), Entry::set_free);
            name.push_str(&format!("-{pbn}-freed"));
        }
        vectors.push(Vector::new(name, book, Totals));
    }
    vectors
}

#[cfg(test)]
mod tests {
    use super::edits;
    use crate::vector::edited;
    use reference::store::{self, Fault};

    #[test]
    fn each_edit_has_its_faults() {
        for (edit, faults) in edits() {
            let found = store::faults(&edited(&[&edit])).expect("in form");
            assert_eq!(found, faults, "{}", edit.name);
        }
    }

    #[test]
    fn each_fault_comes_alone() {
        for fault in Fault::ALL {
            assert!(edits().iter().any(|(_, faults)| *faults == [fault]));
        }
    }
}
