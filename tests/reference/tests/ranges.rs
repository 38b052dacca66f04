//! Both ends of every range: sizes, retentions, days, numbers, lists and counts.

use reference::agreement;
use reference::call::{Answer, Call, Stored};
use reference::cases::{after_d, block, fingerprint, list, list_of, SIZES};
use reference::form;
use reference::layout::{Book, Header, Lbn, Pbn, Sizes};
use reference::plain::Plain;
use reference::refusal::Refusal;
use reference::store::{self, BackedUp};

const SMALLEST: Sizes = Sizes {
    blocks: 1,
    lbns: 1,
    slots: 1,
    records: 1,
};

const LARGEST: Sizes = Sizes {
    blocks: 4_096,
    lbns: 1_024,
    slots: 1_024,
    records: 16_384,
};

fn fresh(sizes: Sizes) -> Stored {
    Stored::new(sizes, vec![0; sizes.pool_bytes()]).expect("sizes in range")
}

fn backup(stored: &mut Stored, volume: u16, day: u16, list: &[u8]) -> Result<BackedUp, Refusal> {
    let Stored { book, pool, spare } = stored;
    store::backup(book, pool, spare, volume, day, list)
}

#[test]
fn lengths_run_from_87_to_208_932() {
    assert_eq!(SMALLEST.book_bytes(), 87);
    assert_eq!(LARGEST.book_bytes(), 208_932);
    assert_eq!(SMALLEST.book_bytes_in(1), 86);
    assert_eq!(LARGEST.book_bytes_in(1), 204_836);
    assert_eq!(SMALLEST.book_bytes_in(2), 87);
    assert_eq!(LARGEST.book_bytes_in(2), 208_932);
    for sizes in [SMALLEST, LARGEST] {
        let mut book = vec![0xA5; sizes.book_bytes()];
        assert_eq!(store::format(&mut book, sizes), Ok(()));
        assert!(form::check(&book).is_ok());
        assert_eq!(store::audit(&book), Ok(true));
    }
}

#[test]
fn format_leaves_all_zero_but_layout_sizes_and_maps() {
    let mut book = vec![0xA5; 280];
    store::format(&mut book, SIZES).unwrap();
    let mut expected = vec![0; 280];
    expected[..10].copy_from_slice(&[3, 0, 4, 0, 4, 0, 6, 0, 8, 0]);
    expected[120..184].fill(0xFF);
    assert_eq!(book, expected);
}

#[test]
fn sizes_out_of_range_break_the_layout() {
    let wrong = [
        Sizes { blocks: 0, ..SIZES },
        Sizes {
            blocks: 4_097,
            ..SIZES
        },
        Sizes { lbns: 0, ..SIZES },
        Sizes {
            lbns: 1_025,
            ..SIZES
        },
        Sizes { slots: 0, ..SIZES },
        Sizes {
            slots: 1_025,
            ..SIZES
        },
        Sizes {
            records: 0,
            ..SIZES
        },
        Sizes {
            records: 16_385,
            ..SIZES
        },
    ];
    for sizes in wrong {
        let mut book = vec![0; sizes.book_bytes()];
        assert_eq!(store::format(&mut book, sizes), Err(Refusal::Layout));
        assert!(book.iter().all(|&byte| byte == 0));
        reference::layout::format(&mut book, sizes);
        assert_eq!(form::check(&book).err(), Some(Refusal::Layout));
    }
}

#[test]
fn enrol_takes_volumes_0_to_7_and_retentions_1_to_5_000() {
    let mut book = fresh(SMALLEST).book;
    for retention in [0, 5_001, 65_535] {
        let result = store::enrol(&mut book, 0, retention);
        assert_eq!(result, Err(Refusal::Retention));
    }
    assert_eq!(store::enrol(&mut book, 0, 1), Ok(()));
    assert_eq!(store::enrol(&mut book, 7, 5_000), Ok(()));
    for volume in [0, 7, 8, 256, 65_535] {
        let result = store::enrol(&mut book, volume, 1);
        assert_eq!(result, Err(Refusal::Volume));
    }
    let view = form::check(&book).unwrap();
    assert_eq!((view.retention(0), view.retention(7)), (1, 5_000));
}

#[test]
fn days_run_from_the_headers_to_60_000() {
    let mut book = after_d().book;
    assert_eq!(store::collect(&mut book, 8), Err(Refusal::Day));
    assert_eq!(store::collect(&mut book, 9), Ok(0));
    assert_eq!(store::collect(&mut book, 60_001), Err(Refusal::Day));
    assert_eq!(store::collect(&mut book, 60_000), Ok(1));
    assert_eq!(store::collect(&mut book, 59_999), Err(Refusal::Day));
    let mut stored = after_d();
    assert_eq!(backup(&mut stored, 0, 8, &[0, 0]), Err(Refusal::Day));
    assert_eq!(backup(&mut stored, 1, 9, &[0, 0]), Err(Refusal::Day));
    assert!(backup(&mut stored, 0, 9, &[0, 0]).is_ok());
    assert_eq!(backup(&mut stored, 1, 60_001, &[0, 0]), Err(Refusal::Day));
    assert!(backup(&mut stored, 1, 60_000, &[0, 0]).is_ok());
}

/// A backup before the last day of all is of day 59,999 at most. Form takes one day more.
#[test]
fn expiries_reach_64_999() {
    let mut stored = fresh(SIZES);
    store::enrol(&mut stored.book, 7, 5_000).unwrap();
    backup(&mut stored, 7, 59_999, &list(&[(0, "A")])).unwrap();
    backup(&mut stored, 7, 60_000, &list(&[(0, "B")])).unwrap();
    let view = form::check(&stored.book).unwrap();
    assert_eq!(view.entry(Pbn(0)).expiry, 64_999);
    assert_eq!(store::audit(&stored.book), Ok(true));
    let mut book = Book::over(&mut stored.book[..]);
    book.edit_entry(Pbn(0), |entry| entry.expiry = 65_000);
    assert_eq!(store::audit(&stored.book), Ok(false));
}

/// A list of these pairs, with as many changes as they say.
fn list_of_pairs(pairs: &[(u16, u16)]) -> Vec<u8> {
    let number: u32 = pairs.iter().map(|(_, length)| u32::from(*length)).sum();
    let change = (fingerprint('A'), block('A'));
    list_of(pairs, &vec![change; number as usize])
}

#[test]
fn lists_keep_within_the_volume() {
    let taken = |pairs: &[(u16, u16)]| {
        let list = list_of_pairs(pairs);
        reference::change_list::read(&list, 4).is_ok()
    };
    assert!(taken(&[]));
    assert!(taken(&[(0, 4)]));
    assert!(taken(&[(3, 1)]));
    assert!(taken(&[(0, 1), (1, 1), (2, 2)]));
    assert!(!taken(&[(0, 5)]));
    assert!(!taken(&[(3, 2)]));
    assert!(!taken(&[(4, 1)]));
    assert!(!taken(&[(4, 0)]));
    assert!(!taken(&[(0, 0)]));
    assert!(!taken(&[(0, 2), (1, 1)]));
    assert!(!taken(&[(1, 1), (0, 1)]));
    assert!(!taken(&[(1, 1), (1, 1)]));
    // First and length that pass 65,535 together.
    assert!(!taken(&[(65_535, 2)]));
    assert!(!taken(&[(2, 65_535)]));
}

#[test]
fn runs_have_64_blocks_at_most() {
    let taken = |pairs: &[(u16, u16)]| {
        let list = list_of_pairs(pairs);
        let read = reference::change_list::read(&list, 1_024);
        read.map(|list| list.number())
    };
    assert_eq!(taken(&[(0, 63)]), Ok(63));
    assert_eq!(taken(&[(0, 64)]), Ok(64));
    assert_eq!(taken(&[(960, 64)]), Ok(64));
    for length in [65, 66, 128, 1_024] {
        assert_eq!(taken(&[(0, length)]), Err(Refusal::List));
    }
    assert_eq!(taken(&[(959, 65)]), Err(Refusal::List));
    // Runs that touch are runs all the same, short ones too.
    assert_eq!(taken(&[(0, 64), (64, 1)]), Ok(65));
    assert_eq!(taken(&[(0, 1), (1, 64)]), Ok(65));
    assert_eq!(taken(&[(0, 32), (32, 33)]), Ok(65));
    assert_eq!(taken(&[(0, 64), (64, 65)]), Err(Refusal::List));
    assert_eq!(taken(&[(0, 65), (65, 64)]), Err(Refusal::List));
    let all: Vec<_> = (0..16).map(|piece| (64 * piece, 64)).collect();
    assert_eq!(taken(&all), Ok(1_024));
}

/// As it was written before runs had a most: it is refused by both stores, and nothing changes.
#[test]
fn a_list_in_the_old_form_is_refused() {
    let sizes = Sizes {
        blocks: 4,
        lbns: 130,
        slots: 4,
        records: 300,
    };
    let (mut stored, mut plain) = (fresh(sizes), Plain::new(sizes));
    let mut call = |call: Call| {
        let before = stored.clone();
        let answer = stored.call(&call);
        assert_eq!(plain.call(&call), answer);
        let agreed = agreement::check(&stored.book, &stored.pool, &plain);
        assert_eq!(agreed, Ok(()));
        let same = stored.book == before.book && stored.pool == before.pool;
        assert_eq!(same, matches!(answer, Answer::Refused(_)));
        answer
    };
    let backup = |day, pairs: &[(u16, u16)]| Call::Backup {
        volume: 2,
        day,
        list: list_of_pairs(pairs),
    };
    let enrol = Call::Enrol {
        volume: 2,
        retention: 9,
    };
    assert_eq!(call(enrol), Answer::Enrolled);
    for first in [0, 65] {
        let old = backup(1, &[(first, 65)]);
        assert_eq!(call(old), Answer::Refused(Refusal::List));
    }
    let taken = Answer::BackedUp(BackedUp {
        number: 1,
        taken: 1,
        touched: 65,
    });
    assert_eq!(call(backup(1, &[(65, 64), (129, 1)])), taken);
    let old = backup(2, &[(0, 1), (1, 65), (66, 64)]);
    assert_eq!(call(old), Answer::Refused(Refusal::List));
}

#[test]
fn lists_have_their_exact_length() {
    let taken = |list: &[u8]| reference::change_list::read(list, 4).is_ok();
    let mut list = list(&[(1, "AB")]);
    assert_eq!(list.len(), 2 + 4 + 2 * 528);
    assert!(taken(&list));
    list.push(0);
    assert!(!taken(&list));
    for length in 0..list.len() - 1 {
        assert!(!taken(&list[..length]));
    }
    assert!(taken(&[0, 0]));
    assert!(!taken(&[0, 0, 0]));
    assert!(!taken(&[1, 0]));
}

#[test]
fn slots_and_journal_fill_up_to_the_last() {
    let sizes = Sizes {
        slots: 3,
        records: 4,
        ..SIZES
    };
    let mut stored = fresh(sizes);
    store::enrol(&mut stored.book, 0, 1).unwrap();
    let three = list(&[(0, "ABC")]);
    let two = list(&[(0, "AB")]);
    let one = list(&[(3, "A")]);
    assert!(backup(&mut stored, 0, 1, &three).is_ok());
    let result = backup(&mut stored, 0, 2, &two);
    assert_eq!(result, Err(Refusal::JournalFull));
    assert!(backup(&mut stored, 0, 2, &one).is_ok());
    let result = backup(&mut stored, 0, 3, &one);
    assert_eq!(result, Err(Refusal::JournalFull));
    assert!(backup(&mut stored, 0, 3, &[0, 0]).is_ok());
    let result = backup(&mut stored, 0, 4, &[0, 0]);
    assert_eq!(result, Err(Refusal::SlotsFull));
    assert_eq!(store::audit(&stored.book), Ok(true));
}

/// A list of so many equal blocks, from LBN 0 on.
fn equal_blocks(length: u16) -> Vec<u8> {
    let starts = (0..length).step_by(64);
    let pairs: Vec<_> = starts.map(|lbn| (lbn, (length - lbn).min(64))).collect();
    list_of_pairs(&pairs)
}

fn count_of(stored: &Stored, pbn: u16) -> u16 {
    form::check(&stored.book).unwrap().entry(Pbn(pbn)).count
}

#[test]
fn a_count_passes_255() {
    let sizes = Sizes {
        blocks: 2,
        lbns: 300,
        slots: 9,
        records: 900,
    };
    let mut stored = fresh(sizes);
    store::enrol(&mut stored.book, 3, 1).unwrap();
    for (day, length) in [(1, 255), (2, 256), (3, 300)] {
        let answer = backup(&mut stored, 3, day, &equal_blocks(length)).unwrap();
        assert_eq!(answer.taken, u16::from(day == 1));
        assert_eq!(count_of(&stored, 0), length);
        assert_eq!(store::audit(&stored.book), Ok(true));
    }
    backup(&mut stored, 3, 4, &list(&[(0, "B"), (255, "A")])).unwrap();
    assert_eq!(count_of(&stored, 0), 299);
    assert_eq!(store::audit(&stored.book), Ok(true));
}

/// Eight maps of 1,024 cells: no list from a fresh book brings a count further.
#[test]
fn a_block_in_every_cell_has_count_8_192() {
    let mut stored = fresh(LARGEST);
    let mut plain = Plain::new(LARGEST);
    for volume in 0..8 {
        let enrol = Call::Enrol {
            volume,
            retention: 1,
        };
        let backup = Call::Backup {
            volume,
            day: 1,
            list: equal_blocks(1_024),
        };
        for call in [enrol, backup] {
            assert_eq!(plain.call(&call), stored.call(&call));
        }
        assert_eq!(count_of(&stored, 0), 1_024 * (volume + 1));
    }
    assert_eq!(store::audit(&stored.book), Ok(true));
    let again = backup(&mut stored, 7, 2, &equal_blocks(1_024)).unwrap();
    assert_eq!((again.taken, again.touched), (0, 2_048));
    assert_eq!(count_of(&stored, 0), 8_192);
}

#[test]
fn read_takes_kept_numbers_and_lbns_of_the_volume() {
    let mut stored = after_d();
    let read = |stored: &Stored, number, lbn| {
        let part = store::read(&stored.book, &stored.pool, 0, number, lbn);
        part.map(|bytes| bytes[0])
    };
    assert_eq!(read(&stored, 0, 0), Err(Refusal::Number));
    assert_eq!(read(&stored, 1, 0), Ok(b'A'));
    assert_eq!(read(&stored, 2, 0), Ok(b'C'));
    assert_eq!(read(&stored, 3, 0), Err(Refusal::Number));
    assert_eq!(read(&stored, 2, 3), Err(Refusal::Unmapped));
    assert_eq!(read(&stored, 2, 4), Err(Refusal::LbnAbove));
    store::collect(&mut stored.book, 15).unwrap();
    assert_eq!(read(&stored, 1, 0), Ok(b'A'));
    store::collect(&mut stored.book, 16).unwrap();
    assert_eq!(read(&stored, 1, 0), Err(Refusal::NotKept));
    assert_eq!(read(&stored, 2, 1), Ok(b'B'));
}

#[test]
fn the_cursor_goes_round() {
    let mut stored = fresh(LARGEST);
    store::enrol(&mut stored.book, 0, 1).unwrap();
    Book::over(&mut stored.book[..]).set_header(Header::Cursor, 4_095);
    backup(&mut stored, 0, 1, &list(&[(1_022, "AB")])).unwrap();
    let view = form::check(&stored.book).unwrap();
    assert_eq!(view.cell(0, Lbn(1_022)), Pbn(4_095));
    assert_eq!(view.cell(0, Lbn(1_023)), Pbn(0));
    assert_eq!(view.header(Header::Cursor), 1);
    assert_eq!(stored.pool[4_095 * 512..], block('A'));
}
