//! The setting of document 01's cases: sizes, two volumes, and lists of letters.

use crate::call::{Answer, Call, Stored};
use crate::layout::{
    Block, Book, Fingerprint, Header, Pbn, Sizes, BLOCK_BYTES, FINGERPRINT_BYTES, UNUSED_SLOT,
};
use crate::store;

pub const SIZES: Sizes = Sizes {
    blocks: 4,
    lbns: 4,
    slots: 6,
    records: 8,
};

pub fn fingerprint(letter: char) -> Fingerprint {
    [letter as u8; FINGERPRINT_BYTES]
}

pub fn block(letter: char) -> Block {
    [letter as u8; BLOCK_BYTES]
}

/// A list of runs, each a first LBN and a letter for each changed block.
pub fn list(runs: &[(u16, &str)]) -> Vec<u8> {
    let pairs: Vec<_> = runs
        .iter()
        .map(|(first, letters)| (*first, letters.len() as u16))
        .collect();
    let changes: Vec<_> = runs
        .iter()
        .flat_map(|(_, letters)| letters.chars())
        .map(|letter| (fingerprint(letter), block(letter)))
        .collect();
    list_of(&pairs, &changes)
}

/// The bytes of a list, whatever its pairs are.
pub fn list_of(pairs: &[(u16, u16)], changes: &[(Fingerprint, Block)]) -> Vec<u8> {
    let mut list = (pairs.len() as u16).to_le_bytes().to_vec();
    for (first, length) in pairs {
        list.extend(first.to_le_bytes());
        list.extend(length.to_le_bytes());
    }
    for (fingerprint, _) in changes {
        list.extend(fingerprint);
    }
    for (_, block) in changes {
        list.extend(block);
    }
    list
}

pub fn backup(volume: u16, day: u16, runs: &[(u16, &str)]) -> Call {
    Call::Backup {
        volume,
        day,
        list: list(runs),
    }
}

/// The calls before case a and of cases a to d.
pub fn calls_to_d() -> Vec<Call> {
    vec![
        Call::Enrol {
            volume: 0,
            retention: 10,
        },
        Call::Enrol {
            volume: 1,
            retention: 3,
        },
        backup(0, 5, &[(0, "AB")]),
        backup(1, 6, &[(3, "A")]),
        backup(0, 8, &[(0, "C")]),
        backup(1, 9, &[(3, "B")]),
    ]
}

/// The box after case d.
pub fn after_d() -> Stored {
    let pool = vec![0; SIZES.pool_bytes()];
    let mut stored = Stored::new(SIZES, pool).expect("the sizes are in range");
    for call in calls_to_d() {
        let answer = stored.call(&call);
        assert!(!matches!(answer, Answer::Refused(_)), "{answer:?}");
    }
    stored
}

/// Backups of days 8 and 10 as one: LBN 0 goes from A to C to D in a single slot.
pub fn two_records_in_a_slot() -> Stored {
    let mut stored = after_d();
    let Stored { book, pool, spare } = &mut stored;
    let result = store::backup(book, pool, spare, 0, 10, &list(&[(0, "D")]));
    assert!(result.is_ok());
    let mut view = Book::over(&mut book[..]);
    let (a_to_c, between) = (view.record(3), view.record(4));
    view.set_record(3, between);
    view.set_record(4, a_to_c);
    let (of_day_9, of_day_10) = (view.slot(3), view.slot(4));
    view.set_slot(2, of_day_9);
    view.edit_slot(2, |slot| slot.first = 3);
    view.set_slot(3, of_day_10);
    view.edit_slot(3, |slot| (slot.first, slot.number) = (4, 2));
    view.set_slot(4, UNUSED_SLOT);
    view.set_header(Header::SlotsUsed, 4);
    for pbn in [Pbn(0), Pbn(2)] {
        view.edit_entry(pbn, |entry| entry.expiry = 15);
    }
    stored
}
