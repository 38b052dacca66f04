//! An aid leaves the clinic, by document 02's sentences: the slot and its records, what is read and
//! kept afterwards, the refusals in order, and where another reading would show.

use reference::call::{Answer, Call, Stored};
use reference::cases::{after_d, backup, block, SIZES};
use reference::clinic::Clinic;
use reference::keeping::{is_kept, kept_until, Backups};
use reference::layout::{
    Book, Header, Lbn, Pbn, Record, Sizes, Slot, BACKUP, HELD, RETIREMENT, UNMAPPED,
};
use reference::refusal::Refusal;
use reference::store::{self, Run};

fn retire(volume: u16, day: u16) -> Call {
    Call::Retire { volume, day }
}

fn refused(number: Refusal) -> Answer {
    Answer::Refused(number)
}

/// A refused retirement of this box changes nothing but the spare.
fn refuses(stored: &Stored, volume: u16, day: u16, refusal: Refusal) {
    let mut after = stored.clone();
    assert_eq!(after.call(&retire(volume, day)), refused(refusal));
    assert_eq!((&after.book, &after.pool), (&stored.book, &stored.pool));
}

fn edited(edit: impl FnOnce(&mut Book<&mut [u8]>)) -> Stored {
    let mut stored = after_d();
    edit(&mut Book::over(&mut stored.book[..]));
    stored
}

fn entry(stored: &Stored, pbn: u16) -> (u8, u16, u16) {
    let entry = Book::over(&stored.book[..]).entry(Pbn(pbn));
    (entry.state, entry.count, entry.expiry)
}

fn reads(stored: &Stored, volume: u16, number: u16, lbn: u16) -> Result<u8, Refusal> {
    let block = store::read(&stored.book, &stored.pool, volume, number, lbn);
    block.map(|block| block[0])
}

/// Volume 0 has C and B, and its last backup is of day 8; nothing but these fields changes.
#[test]
fn a_slot_and_a_record_for_each_mapped_cell() {
    let before = after_d();
    let mut stored = before.clone();
    assert_eq!(stored.call(&retire(0, 10)), Answer::Retired(2));
    let mut expected = before.book.clone();
    let mut book = Book::over(&mut expected[..]);
    book.set_header(Header::SlotsUsed, 5);
    book.set_header(Header::RecordsUsed, 7);
    book.set_header(Header::Day, 10);
    for (lbn, pbn) in [(0, 2), (1, 1)] {
        book.set_cell(0, Lbn(lbn), UNMAPPED);
        book.edit_entry(Pbn(pbn), |entry| {
            (entry.count, entry.expiry) = (entry.count - 1, 18)
        });
        let record = Record {
            lbn: Lbn(lbn),
            before: Pbn(pbn),
            after: Pbn(65_535),
        };
        book.set_record(5 + usize::from(lbn), record);
    }
    let slot = Slot {
        volume: 0,
        kind: 1,
        day: 10,
        first: 5,
        number: 2,
    };
    book.set_slot(4, slot);
    assert_eq!(stored.book, expected);
    assert_eq!(stored.pool, before.pool);
    assert_eq!(store::audit(&stored.book), Ok(true));
}

#[test]
fn a_volume_without_backups() {
    let mut clinic = Clinic::of(SIZES);
    clinic.enrols(3, 7);
    assert_eq!(clinic.call(retire(3, 0)), Answer::Retired(0));
    let book = Book::over(&clinic.stored.book[..]);
    let slot = Slot {
        volume: 3,
        kind: 1,
        day: 0,
        first: 0,
        number: 0,
    };
    assert_eq!(book.slot(0), slot);
    assert_eq!(book.header(Header::SlotsUsed), 1);
    assert_eq!(book.header(Header::RecordsUsed), 0);
    assert_eq!(clinic.reads(3, 1, 0), Err(Refusal::Number));
}

/// As for a backup: above the volume's last one, and not before the header's day.
#[test]
fn days() {
    let stored = after_d();
    for day in [0, 5, 7, 8, 60_001, 65_535] {
        refuses(&stored, 0, day, Refusal::Day);
    }
    // The header's day is 9, which is volume 1's last backup.
    refuses(&stored, 1, 9, Refusal::Day);
    for (volume, day) in [(0, 9), (0, 60_000), (1, 10), (1, 60_000)] {
        let answer = stored.clone().call(&retire(volume, day));
        assert!(matches!(answer, Answer::Retired(_)), "{volume} on {day}");
    }
}

#[test]
fn volumes() {
    let mut stored = after_d();
    for volume in [2, 7, 8, 255, 256, 65_535] {
        refuses(&stored, volume, 10, Refusal::Volume);
    }
    stored.call(&retire(0, 10));
    let retired = stored.clone();
    refuses(&retired, 0, 11, Refusal::Volume);
    let enrol = Call::Enrol {
        volume: 0,
        retention: 4,
    };
    for call in [enrol, backup(0, 11, &[]), backup(0, 11, &[(0, "A")])] {
        assert_eq!(stored.call(&call), refused(Refusal::Volume));
        assert_eq!(stored.book, retired.book);
    }
    // The other volume goes on.
    assert!(matches!(
        stored.call(&backup(1, 11, &[(3, "A")])),
        Answer::BackedUp(_)
    ));
}

/// Reading and showing a retired volume is no 5.
#[test]
fn a_retired_volume_is_read_and_shown() {
    let mut stored = after_d();
    stored.call(&retire(0, 10));
    let Stored { book, pool, .. } = &stored;
    for (number, lbn, expected) in [
        (1, 0, Ok(b'A')),
        (1, 1, Ok(b'B')),
        (1, 2, Err(Refusal::Unmapped)),
        (2, 0, Ok(b'C')),
        (2, 1, Ok(b'B')),
        (2, 3, Err(Refusal::Unmapped)),
        (2, 4, Err(Refusal::LbnAbove)),
        (3, 0, Err(Refusal::Number)),
        (0, 0, Err(Refusal::Number)),
    ] {
        assert_eq!(reads(&stored, 0, number, lbn), expected, "{number} {lbn}");
    }
    let run = Run {
        volume: 0,
        number: 2,
        first: 0,
        length: 2,
    };
    let mut output = [0; 1_024];
    assert_eq!(store::restore(book, pool, run, &mut output), Ok(()));
    assert_eq!(output[..], [block('C'), block('B')].concat());
}

#[test]
fn what_is_shown_of_a_retired_volume() {
    let mut stored = after_d();
    stored.call(&retire(0, 10));
    let book = &stored.book;
    let facts = store::volume(book, 0).unwrap();
    assert_eq!(
        (facts.retention, facts.backups, facts.retired),
        (10, 2, Some(10))
    );
    assert_eq!(store::volume(book, 1).unwrap().retired, None);
    let mut rows = [7; 20];
    assert_eq!(store::backups(book, 0, &mut rows), Ok(2));
    assert_eq!(rows[..8], [5, 0, 2, 0, 15, 0, 1, 0]);
    assert_eq!(rows[8..16], [8, 0, 1, 0, 18, 0, 1, 0]);
    assert_eq!(rows[16..], [7; 4]);
    let mut cells = [0; 8];
    assert_eq!(store::cells(book, 0, &mut cells), Ok(()));
    assert_eq!(cells, [255; 8]);
}

fn three(retired: Option<u16>) -> Backups {
    Backups {
        days: vec![5, 8, 20],
        retention: 10,
        retired,
    }
}

#[test]
fn the_newest_is_exempt_while_the_volume_is_not_retired() {
    assert_eq!(kept_until(&three(None), 3), None);
    for retired in [21, 30, 31, 60_000] {
        let volume = three(Some(retired));
        assert_eq!(kept_until(&volume, 1), Some(15));
        assert_eq!(kept_until(&volume, 3), Some(30));
        assert!(is_kept(&volume, 3, 30) && !is_kept(&volume, 3, 31));
    }
}

/// The days count from the backup's own day: the retirement gives it none.
#[test]
fn an_idle_aids_newest_is_gone_at_once() {
    let mut clinic = Clinic::of(SIZES);
    clinic.enrols(0, 3);
    clinic.enrols(1, 3);
    clinic.backs_up(0, 1, &[(0, "AB")]);
    clinic.backs_up(1, 2, &[(0, "B")]);
    assert_eq!(clinic.call(Call::Collect { day: 9 }), Answer::Freed(0));
    assert_eq!(clinic.reads(0, 1, 0), Ok('A'));
    assert_eq!(clinic.call(retire(0, 9)), Answer::Retired(2));
    assert_eq!(clinic.reads(0, 1, 0), Err(Refusal::NotKept));
    // The block that the other volume has stays.
    assert_eq!(clinic.call(Call::Collect { day: 9 }), Answer::Freed(1));
    assert_eq!(clinic.reads(1, 1, 0), Ok('B'));
    let _ = clinic.call(retire(1, 9));
    assert_eq!(clinic.call(Call::Collect { day: 9 }), Answer::Freed(1));
}

/// On the last day it is read, and a collect frees nothing of it; on the next all of it goes.
#[test]
fn within_its_days_the_newest_is_read() {
    let mut clinic = Clinic::of(SIZES);
    clinic.enrols(0, 3);
    clinic.backs_up(0, 1, &[(0, "AB")]);
    assert_eq!(clinic.call(retire(0, 2)), Answer::Retired(2));
    assert_eq!((clinic.expiry(0), clinic.expiry(1)), (4, 4));
    for day in 2..=4 {
        assert_eq!(clinic.call(Call::Collect { day }), Answer::Freed(0));
        assert_eq!(clinic.reads(0, 1, 1), Ok('B'));
    }
    assert_eq!(clinic.call(Call::Collect { day: 5 }), Answer::Freed(2));
    assert_eq!(clinic.reads(0, 1, 1), Err(Refusal::NotKept));
}

/// Retired on day 3 with a backup of day 0 and 3 days: from the retirement's day the expiry would be
/// 6, and the blocks held on 4; an exempt newest would name them when they are free.
#[test]
fn other_readings_show_in_four_calls() {
    let mut clinic = Clinic::of(SIZES);
    clinic.enrols(0, 3);
    clinic.backs_up(0, 0, &[(0, "A")]);
    assert_eq!(clinic.call(retire(0, 3)), Answer::Retired(1));
    assert_eq!(clinic.expiry(0), 3);
    // By the map alone it would be unmapped.
    assert_eq!(clinic.reads(0, 1, 0), Ok('A'));
    assert_eq!(clinic.call(Call::Collect { day: 4 }), Answer::Freed(1));
    assert_eq!(clinic.reads(0, 1, 0), Err(Refusal::NotKept));
    assert_eq!(clinic.call(Call::Collect { day: 7 }), Answer::Freed(0));
}

/// An expiry that is larger stays.
#[test]
fn the_larger_expiry() {
    let mut stored = edited(|book| book.edit_entry(Pbn(2), |entry| entry.expiry = 19));
    assert_eq!(stored.call(&retire(0, 10)), Answer::Retired(2));
    assert_eq!(entry(&stored, 2), (HELD, 0, 19));
    assert_eq!(entry(&stored, 1), (HELD, 1, 18));
}

/// A book of no call: volume 2 has no backup, and its map has block 1 all the same.
#[test]
fn no_previous_backup_in_a_damaged_book() {
    let mut stored = after_d();
    store::enrol(&mut stored.book, 2, 7).unwrap();
    Book::over(&mut stored.book[..]).set_cell(2, Lbn(3), Pbn(1));
    assert_eq!(stored.call(&retire(2, 10)), Answer::Retired(1));
    assert_eq!(entry(&stored, 1), (HELD, 1, 7));
    let record = Book::over(&stored.book[..]).record(5);
    assert_eq!((record.lbn, record.before), (Lbn(3), Pbn(1)));
}

/// Two cells on block 3 with count 1: the second is stopped. So is a single one with count 0, and
/// a free block's.
#[test]
fn a_count_that_falls_short() {
    for (count, cells, stops) in [(1, 2, true), (2, 2, false), (1, 1, false), (0, 1, true)] {
        let stored = edited(|book| {
            book.edit_entry(Pbn(3), |entry| (entry.state, entry.count) = (HELD, count));
            for lbn in (1..3).take(cells) {
                book.set_cell(0, Lbn(lbn), Pbn(3));
            }
        });
        match stops {
            true => refuses(&stored, 0, 10, Refusal::BeforeUncounted),
            false => {
                let answer = stored.clone().call(&retire(0, 10));
                assert_eq!(answer, Answer::Retired(1 + cells as u16));
            }
        }
    }
    let free = edited(|book| book.set_cell(0, Lbn(2), Pbn(3)));
    refuses(&free, 0, 10, Refusal::BeforeUncounted);
}

/// A retirement takes a slot, and its cells take records, in the plain store too.
#[test]
fn slots_and_records_are_counted() {
    let sizes = Sizes {
        slots: 3,
        records: 5,
        ..SIZES
    };
    let mut clinic = Clinic::of(sizes);
    for volume in 0..3 {
        clinic.enrols(volume, 3);
    }
    clinic.backs_up(0, 1, &[(0, "AB")]);
    clinic.backs_up(1, 1, &[(0, "AB")]);
    // Four records are used, and the two cells of volume 0 would take two more.
    let full = refused(Refusal::JournalFull);
    assert_eq!(clinic.call(retire(0, 2)), full);
    assert_eq!(clinic.call(backup(0, 2, &[(0, "BA")])), full);
    assert_eq!(clinic.call(retire(2, 2)), Answer::Retired(0));
    let full = refused(Refusal::SlotsFull);
    for call in [retire(0, 3), backup(0, 3, &[]), backup(1, 3, &[(0, "B")])] {
        assert_eq!(clinic.call(call), full);
    }
    assert_eq!(clinic.plain.used(), (3, 4));

    let mut clinic = Clinic::of(Sizes { slots: 5, ..sizes });
    clinic.enrols(0, 3);
    clinic.enrols(1, 3);
    clinic.backs_up(0, 1, &[(0, "AB")]);
    assert_eq!(clinic.call(retire(0, 2)), Answer::Retired(2));
    assert_eq!(clinic.plain.used(), (2, 4));
    let full = refused(Refusal::JournalFull);
    assert_eq!(clinic.call(backup(1, 2, &[(0, "AB")])), full);
    clinic.backs_up(1, 2, &[(0, "A")]);
    // The journal is full to the last record; a retirement without cells still fits.
    assert_eq!(clinic.call(retire(1, 3)), full);
}

/// A box with every fault from this one on, in the order of the checks.
fn faulty(from: usize) -> (Stored, u16, u16) {
    let sizes = Sizes {
        slots: if from <= 5 { 2 } else { 3 },
        records: if from <= 6 { 3 } else { 4 },
        ..SIZES
    };
    let mut stored = Stored::new(sizes, vec![0; sizes.pool_bytes()]).unwrap();
    store::enrol(&mut stored.book, 0, 3).unwrap();
    for call in [backup(0, 1, &[(0, "A")]), backup(0, 2, &[(1, "B")])] {
        assert!(matches!(stored.call(&call), Answer::BackedUp(_)));
    }
    let mut book = Book::over(&mut stored.book[..]);
    if from <= 7 {
        book.edit_entry(Pbn(1), |entry| entry.count = 0);
    }
    if from <= 1 {
        book.set_header(Header::Zero, 1);
    }
    if from == 0 {
        stored.book.push(0);
    }
    if from <= 2 {
        stored.spare.truncate(sizes.book_bytes() - 1);
    }
    let volume = if from <= 3 { 1 } else { 0 };
    let day = if from <= 4 { 2 } else { 3 };
    (stored, volume, day)
}

#[test]
fn checks_in_order() {
    for (from, number) in [1, 2, 4, 5, 7, 9, 10, 13].into_iter().enumerate() {
        let (mut stored, volume, day) = faulty(from);
        let before = stored.clone();
        let result = store::retire(&mut stored.book, &mut stored.spare, volume, day);
        assert_eq!(result.map_err(Refusal::number), Err(number));
        assert_eq!((stored.book, stored.pool), (before.book, before.pool));
    }
    let (mut stored, volume, day) = faulty(8);
    assert_eq!(stored.call(&retire(volume, day)), Answer::Retired(2));
}

#[test]
fn any_spare_that_is_long_enough() {
    let mut expected = after_d();
    expected.call(&retire(0, 10));
    let bytes = SIZES.book_bytes();
    for (room, byte) in [(bytes, 0xFF), (bytes + 1, 0), (2 * bytes, 3)] {
        let mut stored = after_d();
        let mut spare = vec![byte; room];
        let result = store::retire(&mut stored.book, &mut spare, 0, 10);
        assert_eq!((result, stored.book), (Ok(2), expected.book.clone()));
    }
    for room in [0, 1, bytes - 1] {
        let mut stored = after_d();
        let result = store::retire(&mut stored.book, &mut vec![0; room], 0, 10);
        assert_eq!((result, stored.book), (Err(Refusal::Spare), after_d().book));
    }
}

/// All cells of the largest map, on one block.
#[test]
fn the_most_cells() {
    let sizes = Sizes {
        blocks: 1,
        lbns: 1_024,
        slots: 2,
        records: 2_048,
    };
    let mut clinic = Clinic::of(sizes);
    clinic.enrols(7, 5_000);
    let row = &"A".repeat(64)[..];
    let rows: Vec<(u16, &str)> = (0..16).map(|piece| (64 * piece, row)).collect();
    clinic.backs_up(7, 59_999, &rows);
    assert_eq!(clinic.call(retire(7, 60_000)), Answer::Retired(1_024));
    assert_eq!(entry(&clinic.stored, 0), (HELD, 0, 64_999));
    assert_eq!(clinic.reads(7, 1, 1_023), Ok('A'));
}

/// The form of a book whose volume 0 is retired by slot 4 with records 5 and 6.
fn form_after(layout: u16, edit: impl FnOnce(&mut Book<&mut [u8]>)) -> Result<(), Refusal> {
    let mut stored = after_d();
    stored.call(&retire(0, 10));
    let mut book = Book::over(&mut stored.book[..]);
    book.set_header(Header::Layout, layout);
    edit(&mut book);
    reference::form::check_in(layout, &stored.book).map(|_| ())
}

#[test]
fn the_form_of_retirements() {
    let broken = Err(Refusal::Form);
    assert_eq!(form_after(3, |_| {}), Ok(()));
    assert_eq!(form_after(2, |_| {}), broken);
    let kinds = |slot, kind| form_after(3, move |book| book.edit_slot(slot, |s| s.kind = kind));
    for kind in [2, 3, 128, 129, 255] {
        assert_eq!(kinds(4, kind), broken);
        assert_eq!(kinds(5, kind), broken);
    }
    // A backup's records under a retirement, and the other way round.
    for slot in 0..4 {
        assert_eq!(kinds(slot, RETIREMENT), broken);
    }
    assert_eq!(kinds(4, BACKUP), broken);
    assert_eq!(kinds(5, RETIREMENT), broken);
    for (record, afters) in [(4, [4, 65_535]), (5, [0, 3]), (6, [4, 65_534])] {
        for after in afters.map(Pbn) {
            let edit = |book: &mut Book<&mut [u8]>| book.edit_record(record, |r| r.after = after);
            assert_eq!(form_after(3, edit), broken);
        }
    }
}

/// Volumes 0 and 1 retired by slots without records: only the order of slots is wrong.
#[test]
fn no_slot_of_the_volume_follows() {
    for (kinds, holds) in [
        ([0, 0, 0], true),
        ([0, 0, 1], true),
        ([0, 1, 1], true),
        ([0, 1, 0], true),
        ([1, 0, 0], false),
        ([1, 1, 0], false),
        ([1, 0, 1], false),
    ] {
        for layout in 1..=3 {
            let mut bytes = vec![0; SIZES.book_bytes_in(layout)];
            reference::layout::format_in(layout, &mut bytes, SIZES);
            let mut book = Book::over(&mut bytes[..]);
            book.set_header(Header::SlotsUsed, 3);
            book.set_header(Header::Day, 3);
            book.set_retention(0, 1);
            book.set_retention(1, 1);
            for (slot, (volume, kind)) in [0, 1, 0].into_iter().zip(kinds).enumerate() {
                let slot_of = Slot {
                    volume,
                    kind,
                    day: 1 + slot as u16,
                    first: 0,
                    number: 0,
                };
                book.set_slot(slot, slot_of);
            }
            let in_form = reference::form::check_in(layout, &bytes).is_ok();
            let expected = match layout {
                3 => holds,
                _ => kinds == [0, 0, 0],
            };
            assert_eq!(in_form, expected, "{kinds:?} in layout {layout}");
        }
    }
}

/// The audit asks for no unmapped map: a retirement without records leaves C and B in place.
#[test]
fn audit_replays_and_asks_no_more() {
    let bare = Slot {
        volume: 0,
        kind: 1,
        day: 10,
        first: 5,
        number: 0,
    };
    let stored = edited(|book| {
        book.set_slot(4, bare);
        book.set_header(Header::SlotsUsed, 5);
        book.set_header(Header::Day, 10);
    });
    assert_eq!(store::audit(&stored.book), Ok(true));
}

#[test]
fn audit_of_a_retirement() {
    let mut retired = after_d();
    retired.call(&retire(0, 10));
    let faults = |edit: fn(&mut Book<&mut [u8]>)| {
        let mut stored = retired.clone();
        edit(&mut Book::over(&mut stored.book[..]));
        store::faults(&stored.book).unwrap()
    };
    use store::Fault::{Count, Expiry, FreeButNamed, Replay};
    assert_eq!(faults(|_| {}), []);
    let mapped = faults(|book| book.set_cell(0, Lbn(0), Pbn(2)));
    assert_eq!(mapped, [Replay, Count]);
    let other = faults(|book| book.edit_record(5, |record| record.before = Pbn(0)));
    assert_eq!(other, [Replay, Expiry]);
    for expiry in [17, 19, 20] {
        let mut stored = retired.clone();
        Book::over(&mut stored.book[..]).edit_entry(Pbn(2), |entry| entry.expiry = expiry);
        assert_eq!(store::faults(&stored.book), Ok(vec![Expiry]));
    }
    // C is in the newest backup, which is kept to day 18.
    let freed = |book: &mut Book<&mut [u8]>| {
        book.edit_entry(Pbn(2), reference::layout::Entry::set_free);
    };
    for (day, faults) in [
        (10, vec![FreeButNamed]),
        (18, vec![FreeButNamed]),
        (19, vec![]),
    ] {
        let mut stored = retired.clone();
        let mut book = Book::over(&mut stored.book[..]);
        freed(&mut book);
        book.set_header(Header::Day, day);
        assert_eq!(store::faults(&stored.book), Ok(faults), "day {day}");
    }
}
