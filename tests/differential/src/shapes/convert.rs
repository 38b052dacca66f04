//! Shapes of conversions.

use reference::form;
use reference::layout::{Book, HEADER_BYTES};
use reference::layout_2;
use reference::store::Way;

use super::Shape;
use crate::request::Converting;

/// The largest count that layout 1 has room for.
const NARROW: u16 = 255;

pub struct Converted<'a> {
    number: u16,
    pub book: &'a [u8],
    way: Way,
    /// How many bytes the output has, and how many the book to write.
    room: usize,
    exact: usize,
    /// None of a book that is refused by 1 or 2.
    counts: Vec<u16>,
    sound: bool,
}

impl<'a> Converted<'a> {
    pub fn new(converting: &'a Converting, number: u16) -> Self {
        let (book, way) = (converting.book, converting.way);
        let counts = form::check_in(way.from(), book).map_or(Vec::new(), |view| {
            let counts = view.pbns().map(|pbn| view.entry(pbn).count);
            counts.collect()
        });
        let looked_at = matches!(number, 0 | 22);
        let faults = looked_at.then(|| layout_2::faults(way.from(), book));
        Converted {
            number,
            book,
            way,
            room: converting.output.len(),
            exact: way.output_bytes(book),
            counts,
            sound: faults == Some(Ok(Vec::new())),
        }
    }

    fn largest(&self) -> Option<u16> {
        self.counts.iter().max().copied()
    }

    /// Whether it is as long as its sizes ask in the layout that is taken.
    fn has_its_length(&self) -> bool {
        if self.book.len() < HEADER_BYTES {
            return false;
        }
        let sizes = Book::over(self.book).sizes();
        sizes.book_bytes_in(self.way.from()) == self.book.len()
    }

    fn says(&self) -> Option<u16> {
        self.book.first_chunk().map(|two| u16::from_le_bytes(*two))
    }

    /// Of every converter.
    pub fn shapes(&self) -> Vec<Shape> {
        let (accepted, short) = (self.number == 0, self.number == 4);
        let (room, exact, blocks) = (self.room, self.exact, self.counts.len());
        let other = || form::check_in(self.way.to(), self.book).is_ok();
        let renamed = self.says() == Some(self.way.to()) && self.has_its_length();
        vec![
            ("a sound book", accepted && self.sound),
            ("an unsound book", accepted && !self.sound),
            ("one block", accepted && blocks == 1),
            ("4,096 blocks", accepted && blocks == 4_096),
            ("no count above 0", accepted && self.largest() == Some(0)),
            ("a count of 255", accepted && self.largest() == Some(NARROW)),
            ("an output of just the length", accepted && room == exact),
            ("an output one byte longer", accepted && room == exact + 1),
            ("a much longer output", accepted && room > exact + 100),
            ("4 by one byte", short && room + 1 == exact),
            ("4 for an empty output", short && room == 0),
            (
                "1 for a book of the other layout",
                self.number == 1 && other(),
            ),
            (
                "1 for the other's number alone",
                self.number == 1 && renamed,
            ),
        ]
    }

    /// Of those that take layout 2: there are retirements from layout 3 on.
    pub fn retired_shapes(&self) -> [Shape; 1] {
        let mut later = self.book.to_vec();
        if let Some(number) = later.first_mut() {
            *number = 3;
        }
        let alone = self.number == 2 && form::check(&later).is_ok();
        [("2 for a retirement alone", alone)]
    }

    /// Of the one that has a layout on either side.
    pub fn other_layout_shapes(&self) -> [Shape; 2] {
        let refused = self.number == 1;
        let narrow = || form::check_in(1, self.book).is_ok();
        [
            ("1 for a book of layout 1", refused && narrow()),
            (
                "1 for a later number",
                refused && self.says() > Some(3) && self.has_its_length(),
            ),
        ]
    }

    /// Of the one that writes a longer book.
    pub fn longer_shapes(&self) -> [Shape; 1] {
        let as_it_is = self.room == self.book.len();
        [(
            "4 by room for the book as it is",
            self.number == 4 && as_it_is,
        )]
    }

    /// Of the one that writes a shorter book, with less room for counts.
    pub fn shorter_shapes(&self) -> Vec<Shape> {
        let refused = self.number == 22;
        let wide = |count: &&u16| **count > NARROW;
        let several = self.counts.iter().filter(wide).count() > 1;
        let alone = refused && !several && self.counts.len() > 1;
        let (first, last) = (self.counts.first(), self.counts.last());
        let without_room = self.number == 4 && self.largest() > Some(NARROW);
        vec![
            (
                "an output shorter than the book",
                self.number == 0 && self.room < self.book.len(),
            ),
            ("22 by 256 alone", alone && self.largest() == Some(256)),
            ("22 by 65,535", refused && self.largest() == Some(u16::MAX)),
            (
                "22 by the first block alone",
                alone && first > Some(&NARROW),
            ),
            ("22 by the last block alone", alone && last > Some(&NARROW)),
            ("22 by several", refused && several),
            ("22 in a sound book", refused && self.sound),
            ("22 in an unsound book", refused && !self.sound),
            ("22 in a longer output", refused && self.room > self.exact),
            ("4 where 22 would come", without_room),
        ]
    }
}
