//! Backup: the four steps for each change, on the copy of the book in the spare.

use super::taking::{check_room, check_slot_day, Taking};
use super::{living, BackedUp};
use crate::change_list::{self, Change};
use crate::far_end::all_agree;
use crate::form;
use crate::layout::{Block, Fingerprint, Header, Pbn, Record, BACKUP, HELD, UNMAPPED};
use crate::refusal::{require, Refusal};

pub fn backup(
    book: &mut [u8],
    pool: &mut [u8],
    spare: &mut [u8],
    volume: u16,
    day: u16,
    list: &[u8],
) -> Result<BackedUp, Refusal> {
    let view = form::check(book)?;
    require(pool.len() == view.sizes().pool_bytes(), Refusal::Pool)?;
    require(spare.len() >= book.len(), Refusal::Spare)?;
    let volume = living(&view, volume)?;
    check_slot_day(&view, volume, day)?;
    let list = change_list::read(list, view.sizes().lbns)?;
    check_room(&view, list.number())?;

    let mut run = Run::start(Taking::start(book, spare, volume, day), pool);
    for change in list.changes() {
        run.apply(change)?;
    }
    let answer = run.finish(list.number());
    for (pbn, bytes) in run.taken {
        pool[pbn.pool_range()].copy_from_slice(bytes);
    }
    book.copy_from_slice(&spare[..book.len()]);
    Ok(answer)
}

/// A backup under way: the store's bytes, and parts of the list.
struct Run<'s, 'l> {
    taking: Taking<'s>,
    pool: &'s [u8],
    /// The blocks taken so far, with their bytes.
    taken: Vec<(Pbn, &'l Block)>,
    befores: u16,
}

impl<'s, 'l> Run<'s, 'l> {
    fn start(taking: Taking<'s>, pool: &'s [u8]) -> Self {
        Run {
            taking,
            pool,
            taken: Vec::new(),
            befores: 0,
        }
    }

    fn apply(&mut self, change: Change<'l>) -> Result<(), Refusal> {
        let after = match self.held_with(change.fingerprint) {
            Some(found) => {
                let same = self.bytes_of(found) == change.block;
                require(same, Refusal::OtherBytes)?;
                found
            }
            None => self.take(change)?,
        };
        let book = &self.taking.book;
        let before = book.cell(self.taking.volume, change.lbn);
        if before != UNMAPPED {
            self.taking.lower(before)?;
            self.befores += 1;
        }
        self.raise(after)?;
        self.taking.change(Record {
            lbn: change.lbn,
            before,
            after,
        });
        Ok(())
    }

    /// The lowest-numbered held block with this fingerprint.
    fn held_with(&self, fingerprint: &Fingerprint) -> Option<Pbn> {
        self.taking.book.pbns().find(|&pbn| {
            let entry = self.taking.book.entry(pbn);
            entry.state == HELD && all_agree(&entry.fingerprint, fingerprint)
        })
    }

    fn bytes_of(&self, pbn: Pbn) -> &[u8] {
        match self.taken.iter().find(|(taken, _)| *taken == pbn) {
            Some((_, bytes)) => *bytes,
            None => &self.pool[pbn.pool_range()],
        }
    }

    /// Takes the first free block from the cursor up, going round.
    fn take(&mut self, change: Change<'l>) -> Result<Pbn, Refusal> {
        let blocks = self.taking.book.sizes().blocks;
        let cursor = self.taking.book.header(Header::Cursor);
        let free = (cursor..blocks)
            .chain(0..cursor)
            .map(Pbn)
            .find(|&pbn| self.taking.book.entry(pbn).state != HELD);
        let pbn = free.ok_or(Refusal::NoFreeBlock)?;
        self.taking.book.edit_entry(pbn, |entry| {
            entry.state = HELD;
            entry.fingerprint = *change.fingerprint;
        });
        self.taking
            .book
            .set_header(Header::Cursor, (pbn.0 + 1) % blocks);
        self.taken.push((pbn, change.block));
        Ok(pbn)
    }

    fn raise(&mut self, after: Pbn) -> Result<(), Refusal> {
        let count = self.taking.book.entry(after).count;
        require(count != u16::MAX, Refusal::CountFull)?;
        self.taking.book.edit_entry(after, |entry| entry.count += 1);
        Ok(())
    }

    fn finish(&mut self, changes: usize) -> BackedUp {
        let number = changes as u16;
        self.taking.finish(BACKUP, number);
        let slots = self.taking.book.used_slots_of(self.taking.volume);
        BackedUp {
            number: slots.len() as u16,
            taken: self.taken.len() as u16,
            touched: number + self.befores,
        }
    }
}
