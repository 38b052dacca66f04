//! The pages of tally: totals, and both refusals.

use reference::call::Stored;
use reference::cases::after_d;
use reference::layout::{Book, Header, Pbn, Sizes, HELD};
use reference::layout_2::renumbered;
use reference::store::{convert, Way};
use reference::tally::{counts, page};

/// A fresh book of 65,536 bytes.
fn longest() -> Vec<u8> {
    let sizes = Sizes {
        blocks: 1_324,
        lbns: 1_000,
        slots: 999,
        records: 2_284,
    };
    let stored = Stored::new(sizes, Vec::new()).unwrap();
    assert_eq!(stored.book.len(), 65_536);
    stored.book
}

#[test]
fn totals_after_d() {
    let totals = "blocks 4\nheld 3\nfree 1\nwaiting 1\nreferences 3\n";
    assert_eq!(page(&after_d().book), totals.as_bytes());
}

#[test]
fn totals_of_the_longest_input() {
    let totals = "blocks 1324\nheld 0\nfree 1324\nwaiting 0\nreferences 0\n";
    assert_eq!(page(&longest()), totals.as_bytes());
}

/// The longest page, of a damaged book.
#[test]
fn references_of_eight_digits() {
    let sizes = Sizes {
        blocks: 3_117,
        lbns: 1,
        slots: 1,
        records: 1,
    };
    let mut bytes = Stored::new(sizes, Vec::new()).unwrap().book;
    let mut book = Book::over(&mut bytes[..]);
    for pbn in (0..2_117).map(Pbn) {
        book.edit_entry(pbn, |entry| {
            entry.state = HELD;
            entry.count = if pbn.0 < 1_000 { 0 } else { 65_535 };
        });
    }
    let totals = "blocks 3117\nheld 2117\nfree 1000\nwaiting 1000\nreferences 73202595\n";
    assert_eq!(totals.len(), 65);
    assert_eq!(page(&bytes), totals.as_bytes());
}

#[test]
fn longer_input_is_refused_1() {
    let mut input = longest();
    input.push(0);
    assert_eq!(page(&input), b"refused 1\n");
}

/// Tally's limit isn't the count's.
#[test]
fn a_longer_book_is_counted() {
    let sizes = Sizes {
        blocks: 4_096,
        lbns: 1_024,
        slots: 1_024,
        records: 16_384,
    };
    let book = Stored::new(sizes, Vec::new()).unwrap().book;
    assert_eq!(page(&book), b"refused 1\n");
    let counts = counts(&book).unwrap();
    assert_eq!((counts.blocks, counts.held), (4_096, 0));
    assert_eq!((counts.waiting, counts.references), (0, 0));
}

#[test]
fn a_broken_layout_is_refused_1() {
    assert_eq!(page(b""), b"refused 1\n");
    assert_eq!(page(&after_d().book[..279]), b"refused 1\n");
    let mut older = renumbered(&after_d().book);
    assert_eq!(page(&older), b"refused 1\n");
    let mut oldest = vec![0; 276];
    convert(Way::TwoToOne, &older, &mut oldest).unwrap();
    assert_eq!(page(&oldest), b"refused 1\n");
    convert(Way::TwoToThree, &older.clone(), &mut older).unwrap();
    assert!(page(&older).starts_with(b"blocks 4"));
}

#[test]
fn a_book_out_of_form_is_refused_2() {
    let mut book = after_d().book;
    Book::over(&mut book[..]).set_header(Header::Cursor, 4);
    assert_eq!(page(&book), b"refused 2\n");
}
