//! The converter from layout 2: every expiry is worked out afresh from the journal, every other field
//! is equal. Its numbers, and what the box does with the book afterwards.

use reference::agreement;
use reference::call::{Answer, Call, Stored};
use reference::cases::{self, SIZES};
use reference::form;
use reference::history::History;
use reference::keeping;
use reference::layout::{Book, Header, Lbn, Pbn, Record, Slot, UNMAPPED, VOLUMES};
use reference::layout_2::{self, after_d, faults, OldBox};
use reference::plain::Plain;
use reference::prng::Prng;
use reference::random_books::disturb;
use reference::random_calls::{RandomCalls, Shape};
use reference::refusal::Refusal;
use reference::store::{self, convert, Fault, Way};

/// Converts into an output of just the room.
fn to_3(book: &[u8]) -> Result<Vec<u8>, Refusal> {
    let mut output = vec![0xA5; book.len()];
    convert(Way::TwoToThree, book, &mut output).map(|()| output)
}

/// The expiry of a block by the sentences of documents 01 and 02, whatever the journal says.
fn expiry(book: &Book<&[u8]>, pbn: Pbn) -> u16 {
    let slots: Vec<Slot> = book.used_slots().collect();
    let mut largest = 0;
    for (index, slot) in slots.iter().enumerate() {
        let before = slots[..index].iter();
        let mut of_volume = before.filter(|other| other.volume == slot.volume);
        let previous = of_volume.next_back().map_or(0, |previous| previous.day);
        let mut records = slot.records().map(|record| book.record(record));
        if records.any(|record| record.before == pbn) {
            largest = largest.max(previous + book.retention(slot.volume));
        }
    }
    largest
}

/// Layout number and expiries are as they must be, and every other byte is equal.
fn is_converted(old: &[u8], new: &[u8]) {
    let mut expected = old.to_vec();
    expected[0] = 3;
    let view = Book::over(old);
    for pbn in view.pbns() {
        let at = 36 + 21 * pbn.index() + 3;
        expected[at..at + 2].copy_from_slice(&expiry(&view, pbn).to_le_bytes());
    }
    assert_eq!(new, expected);
}

#[test]
fn the_book_after_d() {
    let old = after_d().book;
    assert_eq!(old[..2], [2, 0]);
    assert_eq!(Book::over(&old[..]).entry(Pbn(0)).expiry, 18);
    assert_eq!(faults(2, &old), Ok(vec![]));
    let new = to_3(&old).unwrap();
    is_converted(&old, &new);
    assert_eq!(new, cases::after_d().book);
    assert_eq!(store::audit(&new), Ok(true));
}

/// Books that runs left under the rule of layout 2, some of them disturbed.
fn many_books(mut each: impl FnMut(&Stored)) {
    let mut prng = Prng::seeded(5);
    for seed in 0..240 {
        let shape = Shape::QUICK[seed as usize % Shape::QUICK.len()];
        let mut calls = RandomCalls::shaped(shape, seed);
        let stored = OldBox::run(&mut calls, 20 + prng.index(80)).stored();
        each(&stored);
        for _ in 0..4 {
            let mut stored = stored.clone();
            disturb(&mut prng, &mut stored.book);
            each(&stored);
        }
    }
}

#[test]
fn every_expiry_comes_from_the_journal_alone() {
    let (mut fell, mut rose, mut refused) = (0, 0, 0);
    many_books(|Stored { book: old, .. }| {
        let new = match form::check_in(2, old) {
            Ok(_) => to_3(old).unwrap(),
            Err(refusal) => {
                refused += 1;
                return assert_eq!(to_3(old), Err(refusal));
            }
        };
        is_converted(old, &new);
        assert!(form::check(&new).is_ok());
        let (old, new) = (Book::over(&old[..]), Book::over(&new[..]));
        let moved = |pbn: &Pbn| new.entry(*pbn).expiry.cmp(&old.entry(*pbn).expiry);
        fell += new.pbns().filter(|pbn| moved(pbn).is_lt()).count();
        rose += new.pbns().filter(|pbn| moved(pbn).is_gt()).count();
    });
    let came = [fell, rose, refused];
    assert!(came.iter().all(|&times| times > 20), "{came:?}");
}

/// What is kept by the new rule was kept by the old one, so a sound book stays sound. A wrong expiry
/// is healed; no other fault is.
#[test]
fn sound_books_stay_sound() {
    let (mut sound, mut healed, mut stayed) = (0, 0, [0; 5]);
    many_books(|Stored { book, .. }| {
        let Ok(before) = faults(2, book) else { return };
        let after = store::faults(&to_3(book).unwrap()).unwrap();
        for fault in [Fault::Replay, Fault::Count, Fault::Fingerprint] {
            assert_eq!(after.contains(&fault), before.contains(&fault));
        }
        assert!(!after.contains(&Fault::Expiry));
        assert!(after.iter().all(|fault| before.contains(fault)));
        sound += u32::from(before.is_empty());
        healed += u32::from(before == [Fault::Expiry]);
        for fault in after {
            stayed[fault as usize] += 1;
        }
    });
    assert!(sound > 240 && healed > 20, "{sound}, {healed}");
    let [replay, count, _, fingerprint, freed] = stayed;
    let came = [replay, count, fingerprint, freed];
    assert!(came.iter().all(|&times| times > 20), "{stayed:?}");
}

/// A backup that could be read gives 16 after it where the days from its own taking have run out.
#[test]
fn some_backups_go() {
    let (mut gone, mut stayed) = (0, 0);
    many_books(|Stored { book, .. }| {
        let Ok(new) = to_3(book) else { return };
        let view = Book::over(&new[..]);
        let day = view.header(Header::Day);
        for volume in (0..VOLUMES).filter(|&volume| view.retention(volume) != 0) {
            let backups = view.backups_of(volume);
            for number in 1..=backups.days.len() {
                let old = layout_2::is_kept(&backups, number, day);
                let new = keeping::is_kept(&backups, number, day);
                assert!(old || !new);
                gone += u32::from(old && !new);
                stayed += u32::from(new && number < backups.days.len());
            }
        }
    });
    assert!(gone > 100 && stayed > 100, "{gone}, {stayed}");
    // After case d with the header's day 16.
    let mut stored = after_d();
    Book::over(&mut stored.book[..]).set_header(Header::Day, 16);
    let backups = Book::over(&stored.book[..]).backups_of(0);
    assert!(layout_2::is_kept(&backups, 1, 16));
    stored.book = to_3(&stored.book).unwrap();
    let (volume, number, lbn) = (0, 1, 0);
    let read = stored.call(&Call::Read {
        volume,
        number,
        lbn,
    });
    assert_eq!(read, Answer::Refused(Refusal::NotKept));
}

/// Calls that go on after it agree with a plain store that kept by the old rule up to then.
#[test]
fn lists_go_on_after_it() {
    let mut freed = 0;
    for seed in 0..120 {
        let shape = Shape::QUICK[seed as usize % Shape::QUICK.len()];
        let mut calls = RandomCalls::shaped(shape, seed);
        let (sizes, pool) = (calls.sizes(), calls.first_pool());
        let mut old = OldBox::new(sizes, pool);
        let (mut plain, mut history) = (Plain::new(sizes), History::new(sizes.lbns));
        plain.keep_by(layout_2::is_kept);
        for _ in 0..60 {
            let call = calls.next_call();
            if let Some(answer) = old.call(&call) {
                assert_eq!(plain.call(&call), answer, "seed {seed}, {call:?}");
                calls.learn(&call, &answer);
                history.note(&call, &answer);
            }
        }
        let mut stored = old.stored();
        assert_eq!(faults(2, &stored.book), Ok(vec![]));
        stored.book = to_3(&stored.book).unwrap();
        plain.keep_by(keeping::is_kept);
        for _ in 0..60 {
            let call = calls.next_call();
            let answer = stored.call(&call);
            assert_eq!(plain.call(&call), answer, "seed {seed}, {call:?}");
            if let Some(past) = history.answer(&call) {
                assert_eq!(past, answer, "seed {seed}, {call:?}");
            }
            let Stored { book, pool, .. } = &stored;
            assert_eq!(agreement::check(book, pool, &plain), Ok(()));
            assert_eq!(store::audit(book), Ok(true));
            if let Answer::Freed(number) = answer {
                freed += u32::from(number);
            }
            calls.learn(&call, &answer);
            history.note(&call, &answer);
        }
    }
    assert!(freed > 100, "{freed}");
}

/// The first backup of a volume in a damaged book replaces something: its expiry counts from day 0.
#[test]
fn a_record_without_a_previous_backup() {
    let mut old = after_d().book;
    let mut view = Book::over(&mut old[..]);
    view.edit_record(0, |record| record.before = Pbn(3));
    view.edit_record(2, |record| record.before = Pbn(2));
    view.edit_entry(Pbn(3), |entry| entry.expiry = 65_000);
    let new = to_3(&old).unwrap();
    is_converted(&old, &new);
    let new = Book::over(&new[..]);
    let expiries: Vec<u16> = new.pbns().map(|pbn| new.entry(pbn).expiry).collect();
    assert_eq!(expiries, [15, 0, 3, 10]);
}

/// A block that no record has for a before gets 0, and a free one keeps what its records come to.
#[test]
fn expiries_of_no_record_and_of_free_blocks() {
    let mut old = after_d().book;
    let mut view = Book::over(&mut old[..]);
    for pbn in (0..4).map(Pbn) {
        view.edit_entry(pbn, |entry| entry.expiry = 12_345);
    }
    view.edit_entry(Pbn(0), |entry| entry.set_free());
    let new = to_3(&old).unwrap();
    let new = Book::over(&new[..]);
    let expiries: Vec<u16> = new.pbns().map(|pbn| new.entry(pbn).expiry).collect();
    assert_eq!(expiries, [15, 0, 0, 0]);
}

/// Of several records the largest counts, wherever it stands, and each by its own volume.
#[test]
fn the_largest_of_several_records() {
    let mut old = OldBox::new(SIZES, vec![0; SIZES.pool_bytes()]);
    for (volume, retention) in [(0, 2), (7, 20)] {
        old.call(&Call::Enrol { volume, retention });
    }
    for call in [
        cases::backup(7, 1, &[(0, "A")]),
        cases::backup(0, 2, &[(0, "A")]),
        cases::backup(7, 3, &[(0, "B")]),
        cases::backup(0, 30, &[]),
        cases::backup(0, 40, &[(0, "B")]),
    ] {
        let answer = old.call(&call);
        assert!(matches!(answer, Some(Answer::BackedUp(_))));
    }
    let old = old.stored().book;
    assert_eq!(Book::over(&old[..]).entry(Pbn(0)).expiry, 42);
    let new = to_3(&old).unwrap();
    // Volume 7: 1 + 20; volume 0: 30 + 2.
    assert_eq!(Book::over(&new[..]).entry(Pbn(0)).expiry, 32);
}

#[test]
fn an_output_is_long_enough_or_left_alone() {
    let old = after_d().book;
    let new = to_3(&old).unwrap();
    assert_eq!(Way::TwoToThree.output_bytes(&old), old.len());
    for room in 0..old.len() {
        let mut output = vec![7; room];
        let refused = convert(Way::TwoToThree, &old, &mut output);
        assert_eq!(refused, Err(Refusal::Spare));
        assert_eq!(output, vec![7; room]);
    }
    for more in [0, 1, 4, 500] {
        let mut output = vec![7; old.len() + more];
        assert_eq!(convert(Way::TwoToThree, &old, &mut output), Ok(()));
        assert_eq!(output, [&new[..], &vec![7; more]].concat());
    }
}

/// Each with all later faults: 1, 2, 4.
#[test]
fn it_checks_in_order() {
    for from in [1, 2, 4] {
        let mut old = after_d().book;
        if from <= 2 {
            Book::over(&mut old[..]).edit_slot(0, |slot| slot.day = 10);
        }
        if from <= 1 {
            old.push(0);
        }
        let mut output = vec![7; 279];
        let refusal = convert(Way::TwoToThree, &old, &mut output).unwrap_err();
        assert_eq!((refusal.number(), output), (from, vec![7; 279]));
    }
}

/// Layouts 2 and 3 are alike in length; the number alone tells them apart.
#[test]
fn it_takes_layout_2_alone() {
    let old = after_d().book;
    let mut narrow = vec![0; 276];
    convert(Way::TwoToOne, &old, &mut narrow).unwrap();
    let mut output = vec![7; 400];
    for book in [&to_3(&old).unwrap(), &narrow] {
        let refused = convert(Way::TwoToThree, book, &mut output);
        assert_eq!(refused, Err(Refusal::Layout));
    }
    for layout in [0, 1, 3, 4, 258, 512, 65_535] {
        let mut book = old.clone();
        Book::over(&mut book[..]).set_header(Header::Layout, layout);
        let refused = convert(Way::TwoToThree, &book, &mut output);
        assert_eq!(refused, Err(Refusal::Layout), "{layout}");
    }
    for length in [0, 1, 2, 19, 20, 36, 279, 281] {
        let mut book = old.clone();
        book.resize(length, 0);
        let refused = convert(Way::TwoToThree, &book, &mut output);
        assert_eq!(refused, Err(Refusal::Layout));
    }
    assert_eq!(output, vec![7; 400]);
}

/// Every call but the converters takes layout 3 alone.
#[test]
fn no_call_takes_layout_2() {
    let Stored {
        mut book,
        mut pool,
        mut spare,
    } = after_d();
    let before = book.clone();
    assert_eq!(form::check(&book).err(), Some(Refusal::Layout));
    assert_eq!(store::audit(&book), Err(Refusal::Layout));
    assert_eq!(store::sizes(&book), Err(Refusal::Layout));
    assert_eq!(store::enrol(&mut book, 5, 1), Err(Refusal::Layout));
    assert_eq!(store::collect(&mut book, 20), Err(Refusal::Layout));
    assert_eq!(store::read(&book, &pool, 0, 1, 0), Err(Refusal::Layout));
    let backup = store::backup(&mut book, &mut pool, &mut spare, 0, 10, &[0, 0]);
    assert_eq!(backup, Err(Refusal::Layout));
    assert_eq!(book, before);
    let mut output = vec![7; 400];
    for way in Way::ALL {
        let new = cases::after_d().book;
        assert_eq!(convert(way, &new, &mut output), Err(Refusal::Layout));
    }
}

/// By way of layout 2 a layout 1 book comes to the same.
#[test]
fn from_layout_1_by_way_of_layout_2() {
    many_books(|Stored { book, .. }| {
        let mut narrow = vec![0; Way::TwoToOne.output_bytes(book)];
        if convert(Way::TwoToOne, book, &mut narrow).is_err() {
            return;
        }
        let mut wide = vec![0; book.len()];
        convert(Way::OneToTwo, &narrow, &mut wide).unwrap();
        assert_eq!(to_3(&wide), to_3(book));
    });
}

/// One LBN with two records in a slot: both befores wait for the same backup.
#[test]
fn two_records_of_an_lbn_in_a_slot() {
    let mut old = layout_2::renumbered(&cases::two_records_in_a_slot().book);
    let mut view = Book::over(&mut old[..]);
    for pbn in (0..4).map(Pbn) {
        view.edit_entry(pbn, |entry| entry.expiry = 1);
    }
    let record = view.record(4);
    assert_eq!(record.before, Pbn(0));
    let unmapped = Record {
        before: UNMAPPED,
        lbn: Lbn(0),
        after: Pbn(0),
    };
    assert_eq!(view.record(0), unmapped);
    assert_eq!(to_3(&old), Ok(cases::two_records_in_a_slot().book));
}
