//! Books of another layout: one of an older layout is for upgrade alone, whole or damaged, and one of
//! a layout that is yet to come for nobody.

use reference::form;
use reference::store;

use super::{file, lines, masks, with, Cases, Wanted, RESTORE, RESTORE_TO_FILE, UPGRADE};
use crate::judge::BOOK;
use crate::older::{book_in, store_in, upgraded, LAYOUTS};
use crate::sealed::{self, Parts};
use crate::tree::Tree;

/// A layout that there isn't yet.
const LATER: u16 = 7;

impl Cases {
    pub(super) fn add_other_layouts(&mut self, whole: &Tree, all: bool) {
        for layout in LAYOUTS {
            self.add_older(layout, whole, all);
        }
        let later = with(whole, BOOK, later_book(whole));
        for line in lines() {
            let says = "refused 1: box/book has layout 7 and";
            self.add_told("book of a later layout", &later, line.line, says);
        }
    }

    fn add_older(&mut self, layout: u16, whole: &Tree, all: bool) {
        let old = store_in(layout, whole);
        let what = format!("book of layout {layout}");
        for line in lines().filter(|line| line.line != UPGRADE.line) {
            self.add_told(&what, &old, line.line, "run aspenbox upgrade box");
        }
        self.add_changed_old_books(layout, &old, all);
        let unsound = with(whole, BOOK, unsound_old_book(layout, whole));
        for line in lines() {
            let says = "box/book is damaged: maps, counts or days";
            self.add_told(&format!("unsound {what}"), &unsound, line.line, says);
        }
    }

    /// Every command ends with the status of a damaged store and leaves no file either.
    fn add_told(&mut self, what: &str, tree: &Tree, line: &'static str, says: &str) {
        let line = match line {
            line if line == RESTORE.line => RESTORE_TO_FILE,
            line => line,
        };
        self.add(what, tree, line, Wanted::Told(says.into()));
    }

    /// Each changed byte is shown to upgrade and to another command.
    fn add_changed_old_books(&mut self, layout: u16, old: &Tree, all: bool) {
        let book = file(old, BOOK);
        let others: Vec<_> = lines().collect();
        let mut turn = 0;
        for at in 0..book.len() {
            for mask in masks(at, all) {
                let mut changed = book.to_vec();
                changed[at] ^= mask;
                let what = format!("book of layout {layout} with byte {at} changed by {mask:#04x}");
                let said = says_of(layout, sealed::open(&changed).book);
                let tree = with(old, BOOK, changed);
                for line in [UPGRADE, others[turn % others.len()]] {
                    match &said {
                        Some(says) => self.add_told(&what, &tree, line.line, says),
                        None => self.add_judged(&what, &tree, line),
                    }
                }
                turn += 1;
            }
        }
    }
}

/// What every command says of a changed book; none where it is one of today's layout now.
fn says_of(layout: u16, book: &[u8]) -> Option<String> {
    if form::check(book).is_ok() {
        return None;
    }
    Some(match form::check_in(layout, book) {
        Err(refusal) => format!("refused {}:", refusal.number()),
        Ok(_) => "box/book is damaged: ".into(),
    })
}

/// The file of a book in an older layout that is unsound, under a digest that fits.
fn unsound_old_book(layout: u16, whole: &Tree) -> Vec<u8> {
    let parts = sealed::open(file(whole, BOOK));
    let id = parts.seal.as_ref().expect("a sealed book").id;
    let book = book_in(layout, &unsound_when_upgraded(&parts));
    sealed::make(&book, &parts.lengths, id)
}

/// A changed book that the audit finds unsound, and also once its expiries are worked out afresh.
fn unsound_when_upgraded(parts: &Parts) -> Vec<u8> {
    let changed = (0..parts.book.len()).map(|at| {
        let mut book = parts.book.to_vec();
        book[at] ^= 1;
        book
    });
    let mut unsound = changed.filter(|book| {
        form::check(book).is_ok() && store::audit(&upgraded(&book_in(2, book))) == Ok(false)
    });
    unsound.next().expect("some byte that the audit looks at")
}

/// The file of a book that has some bytes more, of a layout with a higher number.
fn later_book(whole: &Tree) -> Vec<u8> {
    let parts = sealed::open(file(whole, BOOK));
    let mut book = parts.book.to_vec();
    book[..2].copy_from_slice(&LATER.to_le_bytes());
    book.extend([0; 144]);
    let id = parts.seal.as_ref().expect("a sealed book").id;
    sealed::make(&book, &parts.lengths, id)
}
