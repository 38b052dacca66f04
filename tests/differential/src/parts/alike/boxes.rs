//! A box whose blocks are free, or held with given fingerprints, and lists that are sent to it.

use reference::call::{Call, Stored};
use reference::cases::list_of;
use reference::layout::{Block, Book, Fingerprint, Header, Pbn, Sizes, BLOCK_BYTES, FREE, HELD};
use reference::prng::Prng;
use reference::store;

use super::Label;
use crate::outcome::Outcome;
use crate::request::Request;
use crate::seen::equal;

/// A change: its fingerprint, and the byte that its block is filled with.
pub type Change = (Fingerprint, u8);

fn filled(byte: u8) -> Block {
    [byte; BLOCK_BYTES]
}

/// A backup of these changes, from LBN 0 on.
pub fn backup(volume: u16, day: u16, changes: &[Change]) -> Call {
    let run = [(0, changes.len() as u16)];
    // A list without changes has no pair.
    let pairs = &run[..changes.len().min(1)];
    let changes = changes.iter().map(|(print, byte)| (*print, filled(*byte)));
    let list = list_of(pairs, &changes.collect::<Vec<_>>());
    Call::Backup { volume, day, list }
}

pub struct Scene {
    stored: Stored,
}

impl Scene {
    /// The blocks, free where there is no fingerprint; no map names one. Any block may be the cursor's.
    pub fn new(prng: &mut Prng, blocks: Vec<Option<Fingerprint>>) -> Self {
        let sizes = Sizes {
            blocks: blocks.len() as u16,
            lbns: 16,
            slots: 1,
            records: 16,
        };
        let pool = (1..).take(blocks.len()).flat_map(filled);
        let mut stored = Stored::new(sizes, pool.collect()).expect("sizes in range");
        store::enrol(&mut stored.book, 0, 1).expect("a fresh book");
        let mut book = Book::over(&mut stored.book[..]);
        for (pbn, print) in (0..).map(Pbn).zip(blocks) {
            if let Some(print) = print {
                let held = (HELD, print);
                book.edit_entry(pbn, |entry| (entry.state, entry.fingerprint) = held);
            }
        }
        let mut scene = Scene { stored };
        scene.set_cursor(prng.between(0, sizes.blocks - 1));
        scene
    }

    pub fn set_cursor(&mut self, cursor: u16) {
        Book::over(&mut self.stored.book[..]).set_header(Header::Cursor, cursor);
    }

    fn book(&self) -> Book<&[u8]> {
        Book::over(&self.stored.book)
    }

    pub fn held(&self) -> Vec<u16> {
        let book = self.book();
        let held = book.pbns().filter(|&pbn| book.entry(pbn).state == HELD);
        held.map(|pbn| pbn.0).collect()
    }

    /// The held blocks with this fingerprint.
    pub fn holding(&self, print: &Fingerprint) -> Vec<u16> {
        let mut held = self.held();
        held.retain(|pbn| self.own(*pbn).0 == *print);
        held
    }

    /// The first free block from the cursor on.
    pub fn next_free(&self) -> u16 {
        let book = self.book();
        let (cursor, blocks) = (book.header(Header::Cursor), book.sizes().blocks);
        let mut round = (cursor..blocks).chain(0..cursor);
        let free = round.find(|pbn| book.entry(Pbn(*pbn)).state == FREE);
        free.expect("a free block")
    }

    /// A change with the fingerprint and the bytes of a block.
    pub fn own(&self, pbn: u16) -> Change {
        let bytes = &self.stored.pool[Pbn(pbn).pool_range()];
        (self.book().entry(Pbn(pbn)).fingerprint, bytes[0])
    }

    /// Sends a list; its changes go to these blocks, or it is refused by this number.
    pub fn send(
        &self,
        outcome: &mut Outcome,
        prng: &mut Prng,
        label: Label,
        changes: &[Change],
        expected: Result<Vec<u16>, u16>,
    ) {
        let (stored, call) = (&self.stored, &backup(0, 1, changes));
        let Some(seen) = outcome.compare(prng, label, Request::Call { stored, call }) else {
            return;
        };
        let book = Book::over(seen.content(0));
        let records = 0..usize::from(book.header(Header::RecordsUsed));
        let blocks = match seen.number {
            0 => Ok(records.map(|index| book.record(index).after.0).collect()),
            number => Err(number),
        };
        outcome.check(label, equal("the blocks", blocks, expected));
    }

    pub fn send_audit(&self, outcome: &mut Outcome, prng: &mut Prng, label: Label, sound: bool) {
        let (stored, call) = (&self.stored, &Call::Audit);
        let Some(seen) = outcome.compare(prng, label, Request::Call { stored, call }) else {
            return;
        };
        let answer = equal("the answer", seen.answers[0].1, Some(sound.into()));
        outcome.check(label, answer);
    }
}
