//! Audit against its sentences taken word by word, on sound and on disturbed books.

use reference::call::{Answer, Call, Stored};
use reference::cases::{after_d, fingerprint, two_records_in_a_slot};
use reference::form;
use reference::layout::{Book, Entry, Header, Lbn, Pbn, Record, Slot, HELD, UNMAPPED, VOLUMES};
use reference::prng::Prng;
use reference::random_books::disturb;
use reference::random_calls::{RandomCalls, Shape};
use reference::store;

type View<'a> = Book<&'a [u8]>;

/// Volume, day and record of every used record, in order. The day is that of the volume's slot before
/// the record's, 0 if there is none.
fn records(book: &View) -> Vec<(u8, u16, Record)> {
    let slots: Vec<Slot> = book.used_slots().collect();
    let mut records = Vec::new();
    for (index, slot) in slots.iter().enumerate() {
        let mut before = slots[..index].iter().rev();
        let previous = before.find(|other| other.volume == slot.volume);
        let day = previous.map_or(0, |previous| previous.day);
        let of_slot = slot.records().map(|record| book.record(record));
        records.extend(of_slot.map(|record| (slot.volume, day, record)));
    }
    records
}

/// The last after at a cell among records, unmapped if there is none.
fn replayed(records: &[(u8, u16, Record)], volume: u8, lbn: Lbn) -> Pbn {
    let last = records.iter().rev();
    let mut last = last.filter(|(of, _, record)| *of == volume && record.lbn == lbn);
    last.next().map_or(UNMAPPED, |(_, _, record)| record.after)
}

fn cells<'a>(book: &'a View) -> impl Iterator<Item = (u8, Lbn)> + 'a {
    (0..VOLUMES).flat_map(|volume| book.lbns().map(move |lbn| (volume, lbn)))
}

fn replay_holds(book: &View) -> bool {
    let records = records(book);
    let befores = (0..records.len()).all(|index| {
        let (volume, _, record) = records[index];
        record.before == replayed(&records[..index], volume, record.lbn)
    });
    befores && cells(book).all(|(v, lbn)| book.cell(v, lbn) == replayed(&records, v, lbn))
}

fn entries_hold(book: &View) -> bool {
    let records = records(book);
    book.pbns().all(|pbn| {
        let naming = cells(book).filter(|&(v, lbn)| book.cell(v, lbn) == pbn);
        let with_before = records.iter().filter(|(_, _, record)| record.before == pbn);
        let expiries = with_before.map(|(v, day, _)| day + book.retention(*v));
        let entry = book.entry(pbn);
        usize::from(entry.count) == naming.count() && entry.expiry == expiries.max().unwrap_or(0)
    })
}

fn fingerprints_differ(book: &View) -> bool {
    let held = book.pbns().map(|pbn| book.entry(pbn));
    let held: Vec<Entry> = held.filter(|entry| entry.state == HELD).collect();
    (0..held.len()).all(|i| (0..i).all(|j| held[i].fingerprint != held[j].fingerprint))
}

/// What read's rule gives at an LBN for backup `number`, kept or not.
fn by_read(book: &View, volume: u8, number: usize, lbn: Lbn) -> Pbn {
    let later = book.used_slots_of(volume).split_off(number);
    let mut befores = later.iter().flat_map(|slot| slot.records());
    befores
        .find(|&index| book.record(index).lbn == lbn)
        .map_or(book.cell(volume, lbn), |index| book.record(index).before)
}

fn kept_blocks_held(book: &View) -> bool {
    let held = |pbn: Pbn| pbn == UNMAPPED || book.entry(pbn).state == HELD;
    cells(book).all(|(volume, lbn)| {
        let slots = book.used_slots_of(volume);
        // From number 1 on; a retirement at the end has none, and with it the newest isn't exempt.
        let backups = slots.iter().filter(|slot| slot.kind == 0).count();
        let kept = |number: &usize| {
            let own = slots[*number - 1].day + book.retention(volume);
            *number == slots.len() || own >= book.header(Header::Day)
        };
        let mut kept_numbers = (1..=backups).filter(kept);
        held(book.cell(volume, lbn))
            && kept_numbers.all(|number| held(by_read(book, volume, number, lbn)))
    })
}

/// Each condition of audit: replay, counts and expiries, fingerprints, held blocks.
fn conditions(book: &View) -> [bool; 4] {
    [
        replay_holds(book),
        entries_hold(book),
        fingerprints_differ(book),
        kept_blocks_held(book),
    ]
}

#[test]
fn audit_is_its_conditions() {
    let mut prng = Prng::seeded(11);
    let mut sound = 0;
    let mut alone = [0; 4];
    for seed in 0..1_200 {
        let mut calls = RandomCalls::shaped(Shape::Small, seed);
        let mut stored = calls.run(20 + prng.index(60));
        assert_eq!(stored.call(&Call::Audit), Answer::Sound(true));
        for _ in 0..4 {
            let mut book = stored.book.clone();
            disturb(&mut prng, &mut book);
            let Ok(view) = form::check(&book) else {
                continue;
            };
            let holds = conditions(&view);
            assert_eq!(store::audit(&book), Ok(holds == [true; 4]));
            sound += u32::from(holds == [true; 4]);
            let broken = holds.iter().filter(|&&holds| !holds).count();
            for (times, holds) in alone.iter_mut().zip(holds) {
                *times += u32::from(broken == 1 && !holds);
            }
        }
    }
    assert!(sound > 50, "{sound}");
    assert!(alone.iter().all(|&times| times > 20), "{alone:?}");
}

fn audit_after(change: impl FnOnce(&mut Book<&mut [u8]>)) -> bool {
    let mut stored = after_d();
    change(&mut Book::over(&mut stored.book[..]));
    store::audit(&stored.book).expect("in form")
}

#[test]
fn audit_sees_each_field_after_d() {
    assert!(audit_after(|_| {}));
    assert!(!audit_after(|book| book.set_cell(0, Lbn(1), Pbn(0))));
    assert!(!audit_after(|book| book.set_cell(7, Lbn(3), Pbn(0))));
    for pbn in (0..4).map(Pbn) {
        assert!(!audit_after(
            |book| book.edit_entry(pbn, |entry| entry.expiry += 1)
        ));
    }
    for pbn in (0..3).map(Pbn) {
        assert!(!audit_after(
            |book| book.edit_entry(pbn, |entry| entry.count += 1)
        ));
    }
    assert!(!audit_after(|book| {
        book.edit_entry(Pbn(0), |entry| entry.fingerprint = fingerprint('B'));
    }));
}

#[test]
fn the_first_of_two_records_in_a_backup_counts() {
    let Stored { mut book, pool, .. } = two_records_in_a_slot();
    assert_eq!(store::audit(&book), Ok(true));
    let read = store::read(&book, &pool, 0, 1, 0);
    assert_eq!(read.map(|bytes| bytes[0]), Ok(b'A'));
    // C isn't in any backup, A is.
    for (pbn, sound) in [(Pbn(2), true), (Pbn(0), false)] {
        Book::over(&mut book[..]).edit_entry(pbn, Entry::set_free);
        assert_eq!(store::audit(&book), Ok(sound));
    }
}

#[test]
fn a_kept_backup_needs_its_blocks() {
    for (day, sound) in [(9, false), (15, false), (16, true), (18, true)] {
        let audit = audit_after(|book| {
            book.edit_entry(Pbn(0), Entry::set_free);
            book.set_header(Header::Day, day);
        });
        assert_eq!(audit, sound, "day {day}");
    }
}
