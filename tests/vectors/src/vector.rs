//! One input of tally, with what it is meant to show.

use reference::cases;
use reference::layout::Book;
use reference::tally;

pub type EditedBook<'a> = Book<&'a mut [u8]>;

/// What the page must begin with, said apart from the code that works out the page.
#[derive(Clone, Copy, PartialEq, Eq)]
pub enum Meant {
    Totals,
    Refused1,
    Refused2,
    Either,
}

pub struct Vector {
    pub name: String,
    pub book: Vec<u8>,
    meant: Meant,
}

impl Vector {
    pub fn new(name: impl Into<String>, book: Vec<u8>, meant: Meant) -> Self {
        let name = name.into();
        Vector { name, book, meant }
    }

    /// What tally must print; it must be of the kind meant.
    pub fn page(&self) -> Vec<u8> {
        let page = tally::page(&self.book);
        let begins: &[u8] = match self.meant {
            Meant::Totals => b"blocks ",
            Meant::Refused1 => b"refused 1\n",
            Meant::Refused2 => b"refused 2\n",
            Meant::Either => b"",
        };
        assert!(page.starts_with(begins), "{}", self.name);
        page
    }
}

type Change = dyn Fn(&mut EditedBook) + Send + Sync;

/// A change of the book after case d.
pub struct Edit {
    pub name: String,
    meant: Meant,
    change: Box<Change>,
}

impl Edit {
    pub fn new(
        name: impl Into<String>,
        meant: Meant,
        change: impl Fn(&mut EditedBook) + Send + Sync + 'static,
    ) -> Self {
        Edit {
            name: name.into(),
            meant,
            change: Box::new(change),
        }
    }

    /// Whether the book is no longer in form.
    pub fn breaks_form(&self) -> bool {
        matches!(self.meant, Meant::Refused1 | Meant::Refused2)
    }

    pub fn vector(&self) -> Vector {
        Vector::new(self.name.clone(), edited(&[self]), self.meant)
    }
}

/// The book after case d with these edits, one after the other.
pub fn edited(edits: &[&Edit]) -> Vec<u8> {
    let mut book = cases::after_d().book;
    let mut view = Book::over(&mut book[..]);
    for edit in edits {
        (edit.change)(&mut view);
    }
    book
}
