//! Stores of older layouts, made of the story's by the second implementation. The upgrade of one
//! leaves the very book that the story has.

use reference::keeping;
use reference::layout::{Book, Header, VOLUMES};
use reference::layout_2::{self, FROM_REPLACING};
use reference::store::{convert, settle_expiries, Way};

use crate::judge::BOOK;
use crate::sealed;
use crate::tree::Tree;

/// The layouts that there were.
pub const LAYOUTS: [u16; 2] = [1, 2];

/// A book of today's layout in an older one, with the expiries that books had there. It holds the
/// same blocks, so it may lack some that were kept for longer there.
pub fn book_in(layout: u16, book: &[u8]) -> Vec<u8> {
    let mut wide = book.to_vec();
    let mut fields = Book::over(&mut wide[..]);
    settle_expiries(&mut fields, FROM_REPLACING);
    fields.set_header(Header::Layout, 2);
    match layout {
        2 => wide,
        _ => converted(Way::TwoToOne, &wide),
    }
}

/// The store with its book in that layout.
pub fn store_in(layout: u16, whole: &Tree) -> Tree {
    let parts = sealed::open(whole.file(BOOK).expect("a whole store has a book"));
    let id = parts.seal.as_ref().expect("a sealed book").id;
    let mut tree = whole.clone();
    let book = book_in(layout, parts.book);
    tree.put(BOOK, sealed::make(&book, &parts.lengths, id));
    tree
}

/// What the converters make of a book of layout 2.
pub fn upgraded(book: &[u8]) -> Vec<u8> {
    converted(Way::TwoToThree, book)
}

fn converted(way: Way, book: &[u8]) -> Vec<u8> {
    let mut other = vec![0; way.output_bytes(book)];
    convert(way, book, &mut other).expect("a book in form, with small counts");
    other
}

/// Whether the upgrade to this book ends a backup: one that was kept by the rule of the older
/// layouts and isn't by today's.
pub fn ends_one(book: &[u8]) -> bool {
    let book = Book::over(book);
    let day = book.header(Header::Day);
    (0..VOLUMES).any(|volume| {
        let backups = book.backups_of(volume);
        (1..=backups.days.len()).any(|number| {
            layout_2::is_kept(&backups, number, day) && !keeping::is_kept(&backups, number, day)
        })
    })
}
