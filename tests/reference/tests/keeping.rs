//! Days from the taking: until when a backup and its blocks are kept, where that surprises, and where
//! another reading of the rule would show.

use reference::call::{Answer, Call, Stored};
use reference::cases::{after_d, backup, block, SIZES};
use reference::clinic::Clinic;
use reference::keeping::{is_kept, kept_until, Backups};
use reference::layout::{Book, Header, Lbn, Pbn, Record, Slot, BACKUP};
use reference::refusal::Refusal;
use reference::store;

/// With volume 0 enrolled.
fn keeping(retention: u16) -> Clinic {
    let mut clinic = Clinic::of(SIZES);
    clinic.enrols(0, retention);
    clinic
}

fn backups(days: &[u16], retention: u16) -> Backups {
    Backups {
        days: days.to_vec(),
        retention,
        retired: None,
    }
}

#[test]
fn own_day_plus_retention_is_the_last_day() {
    let three = backups(&[5, 8, 20], 10);
    assert_eq!(kept_until(&three, 1), Some(15));
    assert_eq!(kept_until(&three, 2), Some(18));
    assert_eq!(kept_until(&three, 3), None);
    for (number, day, kept) in [
        (1, 15, true),
        (1, 16, false),
        (2, 18, true),
        (2, 19, false),
        (3, 60_000, true),
    ] {
        assert_eq!(is_kept(&three, number, day), kept, "{number} on {day}");
    }
    // At the ends of days and retentions.
    assert_eq!(
        kept_until(&backups(&[60_000, 60_000], 5_000), 1),
        Some(65_000)
    );
    assert_eq!(kept_until(&backups(&[0, 1], 1), 1), Some(1));
}

/// A backup without changes names what the one before it brought, and is the one that counts: not the
/// backup that brought A (day 1 would come to 4), nor the one that replaces it (day 6 to 9).
#[test]
fn a_block_waits_for_the_last_backup_that_names_it() {
    let mut clinic = keeping(3);
    clinic.backs_up(0, 1, &[(0, "A")]);
    clinic.backs_up(0, 5, &[]);
    assert_eq!(clinic.expiry(0), 0);
    clinic.backs_up(0, 6, &[(0, "B")]);
    assert_eq!(clinic.expiry(0), 8);
    assert_eq!(clinic.reads(0, 1, 0), Err(Refusal::NotKept));
    assert_eq!(clinic.reads(0, 2, 0), Ok('A'));
    assert_eq!(clinic.call(Call::Collect { day: 8 }), Answer::Freed(0));
    assert_eq!(clinic.reads(0, 2, 0), Ok('A'));
    assert_eq!(clinic.call(Call::Collect { day: 9 }), Answer::Freed(1));
    assert_eq!(clinic.reads(0, 2, 0), Err(Refusal::NotKept));
    assert_eq!(clinic.reads(0, 3, 0), Ok('B'));
}

/// The newest backup has no end. After a pause longer than the retention it is gone the moment that
/// the next one is taken.
#[test]
fn after_a_long_pause() {
    let mut clinic = keeping(3);
    clinic.backs_up(0, 1, &[(0, "A")]);
    assert_eq!(clinic.call(Call::Collect { day: 20 }), Answer::Freed(0));
    assert_eq!(clinic.reads(0, 1, 0), Ok('A'));
    clinic.backs_up(0, 21, &[(0, "B")]);
    assert_eq!(clinic.expiry(0), 4);
    assert_eq!(clinic.reads(0, 1, 0), Err(Refusal::NotKept));
    assert_eq!(clinic.reads(0, 2, 0), Ok('B'));
    // On the very same day.
    assert_eq!(clinic.call(Call::Collect { day: 21 }), Answer::Freed(1));
}

/// A pause of just the retention: the one before is kept for that one day more.
#[test]
fn after_a_pause_of_the_retention() {
    let mut clinic = keeping(3);
    clinic.backs_up(0, 1, &[(0, "A")]);
    clinic.backs_up(0, 4, &[(0, "B")]);
    assert_eq!(clinic.reads(0, 1, 0), Ok('A'));
    assert_eq!(clinic.call(Call::Collect { day: 4 }), Answer::Freed(0));
    assert_eq!(clinic.call(Call::Collect { day: 5 }), Answer::Freed(1));
    assert_eq!(clinic.reads(0, 1, 0), Err(Refusal::NotKept));
}

/// What another volume backed up in between makes no difference.
#[test]
fn the_previous_backup_is_the_same_volumes() {
    let mut clinic = keeping(3);
    let (volume, retention) = (1, 1);
    clinic.call(Call::Enrol { volume, retention });
    clinic.backs_up(0, 1, &[(0, "A")]);
    let other = clinic.call(backup(1, 2, &[(0, "C")]));
    assert!(matches!(other, Answer::BackedUp(_)));
    clinic.backs_up(0, 3, &[(0, "B")]);
    assert_eq!(clinic.expiry(0), 4);
}

/// A book of no call: volume 2 has no backup, and its map has block 1 all the same.
#[test]
fn no_previous_backup_in_a_damaged_book() {
    let mut stored = after_d();
    store::enrol(&mut stored.book, 2, 7).unwrap();
    Book::over(&mut stored.book[..]).set_cell(2, Lbn(0), Pbn(1));
    let answer = stored.call(&backup(2, 10, &[(0, "C")]));
    assert!(matches!(answer, Answer::BackedUp(_)), "{answer:?}");
    let entry = Book::over(&stored.book[..]).entry(Pbn(1));
    assert_eq!((entry.count, entry.expiry), (1, 7));
    // An expiry that is larger stays.
    let mut stored = after_d();
    store::enrol(&mut stored.book, 2, 7).unwrap();
    Book::over(&mut stored.book[..]).edit_entry(Pbn(1), |entry| entry.expiry = 8);
    Book::over(&mut stored.book[..]).set_cell(2, Lbn(0), Pbn(1));
    stored.call(&backup(2, 10, &[(0, "C")]));
    assert_eq!(Book::over(&stored.book[..]).entry(Pbn(1)).expiry, 8);
}

/// The audit's expiry of such a record is 0 + R too: nothing but the replay is wrong then.
#[test]
fn audit_counts_from_day_0_without_a_previous_backup() {
    let mut book = after_d().book;
    store::enrol(&mut book, 2, 7).unwrap();
    let mut view = Book::over(&mut book[..]);
    let record = Record {
        lbn: Lbn(0),
        before: Pbn(2),
        after: Pbn(2),
    };
    let slot = Slot {
        volume: 2,
        kind: BACKUP,
        day: 9,
        first: 5,
        number: 1,
    };
    view.set_record(5, record);
    view.set_slot(4, slot);
    view.set_header(Header::SlotsUsed, 5);
    view.set_header(Header::RecordsUsed, 6);
    view.set_cell(2, Lbn(0), Pbn(2));
    view.edit_entry(Pbn(2), |entry| (entry.count, entry.expiry) = (2, 7));
    assert_eq!(store::faults(&book), Ok(vec![store::Fault::Replay]));
    for expiry in [0, 6, 8, 16] {
        Book::over(&mut book[..]).edit_entry(Pbn(2), |entry| entry.expiry = expiry);
        let faults = store::faults(&book).unwrap();
        assert_eq!(faults, [store::Fault::Replay, store::Fault::Expiry]);
    }
}

/// Reads, restores and the rows of backups go by the header's day, a collect by its own.
#[test]
fn every_call_keeps_by_the_same_rule() {
    for day in 9..25 {
        let mut stored = after_d();
        let freed = stored.clone().call(&Call::Collect { day });
        assert_eq!(freed, Answer::Freed(u16::from(day > 15)));
        Book::over(&mut stored.book[..]).set_header(Header::Day, day);
        let Stored { book, pool, .. } = &stored;
        let mut output = [0; 512];
        let run = store::Run {
            volume: 0,
            number: 1,
            first: 0,
            length: 1,
        };
        let restored = store::restore(book, pool, run, &mut output);
        let mut rows = [0; 16];
        assert_eq!(store::backups(book, 0, &mut rows), Ok(2));
        assert_eq!(rows[4..8], [15, 0, u8::from(day <= 15), 0]);
        match day <= 15 {
            true => {
                assert_eq!(store::read(book, pool, 0, 1, 0), Ok(&block('A')[..]));
                assert_eq!((restored, output), (Ok(()), block('A')));
            }
            false => {
                assert_eq!(store::read(book, pool, 0, 1, 0), Err(Refusal::NotKept));
                assert_eq!((restored, output), (Err(Refusal::NotKept), [0; 512]));
            }
        }
    }
}
