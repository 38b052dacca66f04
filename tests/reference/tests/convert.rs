//! The converters between layouts 1 and 2: every field equal, there and back, their numbers and the
//! order of the checks.

use reference::call::{Call, Stored};
use reference::cases::{backup, block, fingerprint, list_of};
use reference::form;
use reference::layout::{Book, Header, Lbn, Pbn, Sizes, HELD, VOLUMES};
use reference::layout_2::{after_d, faults, renumbered, OldBox};
use reference::prng::Prng;
use reference::random_books::disturb;
use reference::random_calls::{RandomCalls, Shape};
use reference::refusal::Refusal;
use reference::store::{self, convert, Way};

/// Converts into an output of just the room.
fn converted(way: Way, book: &[u8]) -> Result<Vec<u8>, Refusal> {
    let mut output = vec![0xA5; way.output_bytes(book)];
    convert(way, book, &mut output).map(|()| output)
}

fn to_1(book: &[u8]) -> Result<Vec<u8>, Refusal> {
    converted(Way::TwoToOne, book)
}

fn to_2(book: &[u8]) -> Result<Vec<u8>, Refusal> {
    converted(Way::OneToTwo, book)
}

/// The layout 2 book in layout 1, byte by byte.
fn by_hand(book: &[u8]) -> Vec<u8> {
    let blocks = usize::from(Book::over(book).sizes().blocks);
    let (front, rest) = book.split_at(36);
    let (entries, rest) = rest.split_at(21 * blocks);
    let mut other = front.to_vec();
    other[0] = 1;
    for entry in entries.chunks(21) {
        other.push(entry[0]);
        other.extend(&entry[2..]);
    }
    other.extend(rest);
    other
}

fn fields_are_equal(one: &[u8], other: &[u8]) {
    let (one, other) = (Book::over(one), Book::over(other));
    assert_eq!(one.sizes(), other.sizes());
    assert_eq!(one.header(Header::Layout) + other.header(Header::Layout), 3);
    for field in [
        Header::SlotsUsed,
        Header::RecordsUsed,
        Header::Day,
        Header::Cursor,
        Header::Zero,
    ] {
        assert_eq!(one.header(field), other.header(field), "{field:?}");
    }
    assert!((0..VOLUMES).all(|v| one.retention(v) == other.retention(v)));
    assert!((0..VOLUMES).all(|v| one.map(v) == other.map(v)));
    assert!(one.pbns().all(|pbn| one.entry(pbn) == other.entry(pbn)));
    let sizes = one.sizes();
    assert!((0..sizes.slots.into()).all(|slot| one.slot(slot) == other.slot(slot)));
    assert!((0..sizes.records.into()).all(|at| one.record(at) == other.record(at)));
}

#[test]
fn the_book_after_d_in_both_layouts() {
    let book = after_d().book;
    let other = to_1(&book).unwrap();
    assert_eq!((book.len(), other.len()), (280, 276));
    assert_eq!(other, by_hand(&book));
    assert_eq!(other[..2], [1, 0]);
    // Block 1: count 2, held, no expiry, B.
    assert_eq!(other[56..60], [2, 1, 0, 0]);
    assert_eq!(book[57..62], [2, 0, 1, 0, 0]);
    assert_eq!(other[60..76], fingerprint('B'));
    assert_eq!(book[62..78], fingerprint('B'));
    fields_are_equal(&book, &other);
    assert_eq!(to_2(&other), Ok(book));
}

/// Books that runs left, some of them disturbed.
fn many_books(mut each: impl FnMut(&[u8])) {
    let mut prng = Prng::seeded(3);
    for seed in 0..240 {
        let shape = Shape::QUICK[seed as usize % Shape::QUICK.len()];
        let mut calls = RandomCalls::shaped(shape, seed);
        let book = OldBox::run(&mut calls, 20 + prng.index(80)).stored().book;
        each(&book);
        for _ in 0..4 {
            let mut book = book.clone();
            disturb(&mut prng, &mut book);
            each(&book);
        }
    }
}

#[test]
fn there_and_back_is_the_same_book() {
    let (mut returned, mut wide, mut unsound) = (0, 0, 0);
    many_books(|book| {
        let view = match form::check_in(2, book) {
            Ok(view) => view,
            Err(refusal) => return assert_eq!(to_1(book), Err(refusal)),
        };
        if view.pbns().any(|pbn| view.entry(pbn).count > 255) {
            assert_eq!(to_1(book), Err(Refusal::CountWide));
            wide += 1;
            return;
        }
        let other = to_1(book).unwrap();
        assert_eq!(other, by_hand(book));
        fields_are_equal(book, &other);
        assert_eq!(to_2(&other).as_deref(), Ok(book));
        let found = faults(2, book).unwrap();
        assert_eq!(faults(1, &other).as_ref(), Ok(&found));
        returned += 1;
        unsound += u32::from(!found.is_empty());
    });
    assert!(
        returned > 500 && wide > 50 && unsound > 100,
        "{returned}, {wide}, {unsound}"
    );
}

/// A layout 1 book is disturbed as such, and converted both ways.
#[test]
fn a_damaged_layout_1_book_comes_back_too() {
    let mut prng = Prng::seeded(4);
    let mut returned = 0;
    many_books(|book| {
        let Ok(mut narrow) = to_1(book) else { return };
        disturb(&mut prng, &mut narrow);
        let wide = to_2(&narrow);
        assert_eq!(
            wide.as_ref().err(),
            form::check_in(1, &narrow).err().as_ref()
        );
        let Ok(wide) = wide else { return };
        fields_are_equal(&narrow, &wide);
        assert_eq!(faults(2, &wide), faults(1, &narrow));
        assert_eq!(to_1(&wide), Ok(narrow));
        returned += 1;
    });
    assert!(returned > 300, "{returned}");
}

#[test]
fn counts_above_255_have_no_room_in_layout_1() {
    for (count, refused) in [
        (255, false),
        (256, true),
        (511, true),
        (512, true),
        (65_535, true),
    ] {
        for pbn in 0..3 {
            let mut book = after_d().book;
            Book::over(&mut book[..]).edit_entry(Pbn(pbn), |entry| entry.count = count);
            let other = to_1(&book);
            match refused {
                true => assert_eq!(other, Err(Refusal::CountWide)),
                false => assert_eq!(to_2(&other.unwrap()), Ok(book)),
            }
        }
    }
}

/// What happens to a clinic that met 14: its book has room for one cell more, and then no way back.
#[test]
fn a_full_count_goes_on_in_later_layouts() {
    let sizes = Sizes {
        blocks: 2,
        lbns: 256,
        slots: 9,
        records: 900,
    };
    let mut stored = Stored::new(sizes, vec![0; sizes.pool_bytes()]).unwrap();
    store::enrol(&mut stored.book, 0, 1).unwrap();
    let pairs: Vec<_> = (0..255).map(|lbn| (lbn, 1)).collect();
    let list = list_of(&pairs, &vec![(fingerprint('A'), block('A')); 255]);
    let first = Call::Backup {
        volume: 0,
        day: 1,
        list,
    };
    stored.call(&first);
    let old = to_1(&renumbered(&stored.book)).unwrap();
    assert_eq!(Book::over(&old[..]).entry(Pbn(0)).count, 255);
    stored.book = converted(Way::TwoToThree, &to_2(&old).unwrap()).unwrap();
    stored.call(&backup(0, 2, &[(255, "A")]));
    let view = form::check(&stored.book).unwrap();
    assert_eq!(view.cell(0, Lbn(255)), Pbn(0));
    assert_eq!(view.entry(Pbn(0)).count, 256);
    assert_eq!(store::audit(&stored.book), Ok(true));
    assert_eq!(to_1(&renumbered(&stored.book)), Err(Refusal::CountWide));
}

#[test]
fn an_output_is_long_enough_or_left_alone() {
    let wide = after_d().book;
    let narrow = to_1(&wide).unwrap();
    let ways = [
        (Way::OneToTwo, &narrow, &wide),
        (Way::TwoToOne, &wide, &narrow),
    ];
    for (way, from, to) in ways {
        assert_eq!(way.output_bytes(from), to.len());
        for room in 0..to.len() {
            let mut output = vec![7; room];
            assert_eq!(convert(way, from, &mut output), Err(Refusal::Spare));
            assert_eq!(output, vec![7; room]);
        }
        for more in [0, 1, 4, 500] {
            let mut output = vec![7; to.len() + more];
            assert_eq!(convert(way, from, &mut output), Ok(()));
            assert_eq!(output, [&to[..], &vec![7; more]].concat());
        }
    }
}

/// Each with all later faults: 1, 2, 4, 22.
#[test]
fn converters_check_in_order() {
    for from in [1, 2, 4, 22] {
        let mut wide = after_d().book;
        let mut view = Book::over(&mut wide[..]);
        view.edit_entry(Pbn(2), |entry| entry.count = 256);
        if from <= 2 {
            view.set_header(Header::Zero, 1);
        }
        if from <= 1 {
            view.set_header(Header::Layout, 4);
        }
        let mut output = vec![7; if from <= 4 { 275 } else { 276 }];
        let before = output.clone();
        let refusal = convert(Way::TwoToOne, &wide, &mut output).unwrap_err();
        assert_eq!((refusal.number(), output), (from, before));
    }
    for from in [1, 2, 4] {
        let mut narrow = to_1(&after_d().book).unwrap();
        if from <= 2 {
            Book::over(&mut narrow[..]).edit_entry(Pbn(3), |entry| entry.state = HELD + 1);
        }
        if from <= 1 {
            narrow.push(0);
        }
        let mut output = vec![7; 279];
        let refusal = convert(Way::OneToTwo, &narrow, &mut output).unwrap_err();
        assert_eq!((refusal.number(), output), (from, vec![7; 279]));
    }
}

/// A layout number goes with its own length, and with the call that takes it.
#[test]
fn each_call_takes_its_own_layout() {
    let wide = after_d().book;
    let narrow = to_1(&wide).unwrap();
    let mut output = vec![7; 400];
    assert_eq!(
        convert(Way::OneToTwo, &wide, &mut output),
        Err(Refusal::Layout)
    );
    assert_eq!(
        convert(Way::TwoToOne, &narrow, &mut output),
        Err(Refusal::Layout)
    );
    for (bytes, layout) in [
        (&wide, 1),
        (&narrow, 2),
        (&narrow, 3),
        (&wide, 0),
        (&wide, 4),
        (&wide, 258),
        (&narrow, 257),
    ] {
        let mut book = bytes.clone();
        Book::over(&mut book[..]).set_header(Header::Layout, layout);
        for way in Way::ALL {
            assert_eq!(convert(way, &book, &mut output), Err(Refusal::Layout));
        }
        assert_eq!(form::check(&book).err(), Some(Refusal::Layout));
    }
    assert_eq!(output, vec![7; 400]);
}

/// Layout 1 is for the converters alone.
#[test]
fn no_call_takes_layout_1() {
    let mut narrow = to_1(&after_d().book).unwrap();
    let mut output = vec![7; 400];
    for length in [0, 1, 2, 19, 20, 36, 275, 277] {
        let mut book = narrow.clone();
        book.resize(length, 0);
        assert_eq!(
            convert(Way::OneToTwo, &book, &mut output),
            Err(Refusal::Layout)
        );
    }
    assert_eq!(form::check(&narrow).err(), Some(Refusal::Layout));
    assert_eq!(store::audit(&narrow), Err(Refusal::Layout));
    assert_eq!(store::enrol(&mut narrow, 5, 1), Err(Refusal::Layout));
    assert_eq!(store::collect(&mut narrow, 20), Err(Refusal::Layout));
}

/// Every condition of form is one of layout 1 too.
#[test]
fn a_layout_1_book_is_in_form_by_the_same_conditions() {
    let narrow = to_1(&after_d().book).unwrap();
    let spoil: [fn(&mut Book<&mut [u8]>); 7] = [
        |book| book.set_header(Header::SlotsUsed, 7),
        |book| book.set_header(Header::Cursor, 4),
        |book| book.set_retention(0, 0),
        |book| book.edit_entry(Pbn(0), |entry| entry.expiry = 65_001),
        |book| book.edit_entry(Pbn(3), |entry| entry.count = 1),
        |book| book.set_cell(7, Lbn(3), Pbn(4)),
        |book| book.edit_record(7, |record| record.after = Pbn(1)),
    ];
    for spoil in spoil {
        let mut book = narrow.clone();
        spoil(&mut Book::over(&mut book[..]));
        assert_eq!(to_2(&book), Err(Refusal::Form));
    }
}
