//! The page that the program tally prints, and the counts on it.

use crate::form;
use crate::layout::{Book, HELD};
use crate::refusal::Refusal;

/// The longest input that tally takes for a book.
pub const INPUT_MAX: usize = 65_536;

/// The page for any standard input, each line ended by a newline.
pub fn page(input: &[u8]) -> Vec<u8> {
    let book = if input.len() > INPUT_MAX {
        Err(Refusal::Layout)
    } else {
        form::check(input)
    };
    match book {
        Ok(book) => totals(&book).into_bytes(),
        Err(refusal) => format!("refused {}\n", refusal.number()).into_bytes(),
    }
}

/// What the entries of a book come to.
pub struct Counts {
    pub blocks: u16,
    pub held: u16,
    pub waiting: u16,
    pub references: u32,
}

/// The counts of a book of any length.
pub fn counts(book: &[u8]) -> Result<Counts, Refusal> {
    form::check(book).map(|book| counts_of(&book))
}

fn counts_of(book: &Book<&[u8]>) -> Counts {
    let entries: Vec<_> = book.pbns().map(|pbn| book.entry(pbn)).collect();
    let held: Vec<_> = entries.iter().filter(|e| e.state == HELD).collect();
    Counts {
        blocks: entries.len() as u16,
        held: held.len() as u16,
        waiting: held.iter().filter(|e| e.count == 0).count() as u16,
        references: entries.iter().map(|e| u32::from(e.count)).sum(),
    }
}

fn totals(book: &Book<&[u8]>) -> String {
    let counts = counts_of(book);
    format!(
        "blocks {}\nheld {}\nfree {}\nwaiting {}\nreferences {}\n",
        counts.blocks,
        counts.held,
        counts.blocks - counts.held,
        counts.waiting,
        counts.references,
    )
}
