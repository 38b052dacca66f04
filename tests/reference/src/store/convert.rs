//! Books from one layout to another: every field is equal but the layout number, and, to layout 3,
//! the expiries.

use super::audit::{settle_expiries, FROM_TAKING};
use crate::form;
use crate::layout::{format_in, Book, Header, HEADER_BYTES, VOLUMES};
use crate::refusal::{require, Refusal};

/// The layouts that a converter goes between.
#[derive(Clone, Copy, Debug, PartialEq, Eq)]
pub enum Way {
    OneToTwo,
    TwoToOne,
    TwoToThree,
}

impl Way {
    pub const ALL: [Way; 3] = [Way::OneToTwo, Way::TwoToOne, Way::TwoToThree];

    /// The layout that is taken.
    pub fn from(self) -> u16 {
        match self {
            Way::OneToTwo => 1,
            Way::TwoToOne | Way::TwoToThree => 2,
        }
    }

    /// The layout that is written.
    pub fn to(self) -> u16 {
        match self {
            Way::OneToTwo => 2,
            Way::TwoToOne => 1,
            Way::TwoToThree => 3,
        }
    }

    /// The converter that gives the very same book back. The old expiries don't come back.
    pub fn back(self) -> Option<Way> {
        match self {
            Way::OneToTwo => Some(Way::TwoToOne),
            Way::TwoToOne => Some(Way::OneToTwo),
            Way::TwoToThree => None,
        }
    }

    /// How many bytes the book to write has, by the sizes in the header; 0 if there is none.
    pub fn output_bytes(self, book: &[u8]) -> usize {
        match book.len() < HEADER_BYTES {
            true => 0,
            false => Book::over(book).sizes().book_bytes_in(self.to()),
        }
    }
}

/// Writes the book in the other layout to the front of the output. No byte is written before nothing
/// can be refused.
pub fn convert(way: Way, book: &[u8], output: &mut [u8]) -> Result<(), Refusal> {
    let book = form::check_in(way.from(), book)?;
    let room = book.sizes().book_bytes_in(way.to());
    require(output.len() >= room, Refusal::Spare)?;
    let is_wide = |pbn| book.entry(pbn).count > 255;
    let fits = way != Way::TwoToOne || !book.pbns().any(is_wide);
    require(fits, Refusal::CountWide)?;
    let mut other = vec![0; room];
    format_in(way.to(), &mut other, book.sizes());
    let mut written = Book::over(&mut other[..]);
    copy_fields(&book, &mut written);
    if way == Way::TwoToThree {
        settle_expiries(&mut written, FROM_TAKING);
    }
    for (place, byte) in output.iter_mut().zip(&other) {
        *place = *byte;
    }
    Ok(())
}

/// Every field but layout and sizes.
fn copy_fields(book: &Book<&[u8]>, other: &mut Book<&mut [u8]>) {
    for field in [
        Header::SlotsUsed,
        Header::RecordsUsed,
        Header::Day,
        Header::Cursor,
        Header::Zero,
    ] {
        other.set_header(field, book.header(field));
    }
    for volume in 0..VOLUMES {
        other.set_retention(volume, book.retention(volume));
        for lbn in book.lbns() {
            other.set_cell(volume, lbn, book.cell(volume, lbn));
        }
    }
    for pbn in book.pbns() {
        other.set_entry(pbn, book.entry(pbn));
    }
    for slot in 0..usize::from(book.sizes().slots) {
        other.set_slot(slot, book.slot(slot));
    }
    for record in 0..usize::from(book.sizes().records) {
        other.set_record(record, book.record(record));
    }
}
