//! What a host is shown of a book. Rows are written only once nothing can be refused.

use super::enrolled;
use crate::form;
use crate::keeping::{is_kept, kept_until};
use crate::layout::{Header, Sizes, HELD};
use crate::refusal::{require, Refusal};

/// In place of a day: the newest backup of a volume that isn't retired has no last day on which it is
/// kept, and the volume none on which it was retired.
pub const NO_END: u16 = 65_535;

/// How much of a book is used.
#[derive(Clone, Copy, Debug, PartialEq, Eq)]
pub struct Used {
    pub slots: u16,
    pub records: u16,
    pub day: u16,
}

#[derive(Clone, Copy, Debug, PartialEq, Eq)]
pub struct VolumeFacts {
    pub retention: u16,
    pub backups: u16,
    /// The day on which it was retired.
    pub retired: Option<u16>,
}

pub fn sizes(book: &[u8]) -> Result<Sizes, Refusal> {
    form::check(book).map(|book| book.sizes())
}

pub fn used(book: &[u8]) -> Result<Used, Refusal> {
    let book = form::check(book)?;
    Ok(Used {
        slots: book.header(Header::SlotsUsed),
        records: book.header(Header::RecordsUsed),
        day: book.header(Header::Day),
    })
}

pub fn volume(book: &[u8], volume: u16) -> Result<VolumeFacts, Refusal> {
    let book = form::check(book)?;
    let volume = enrolled(&book, volume)?;
    Ok(VolumeFacts {
        retention: book.retention(volume),
        backups: book.backups_of(volume).days.len() as u16,
        retired: book.retired_on(volume),
    })
}

/// Day, number of records, last day kept, and whether it is kept, for each backup from number 1 on;
/// answers how many backups.
pub fn backups(book: &[u8], volume: u16, output: &mut [u8]) -> Result<u16, Refusal> {
    let book = form::check(book)?;
    let volume = enrolled(&book, volume)?;
    let slots = book.backup_slots_of(volume);
    let (backups, day) = (book.backups_of(volume), book.header(Header::Day));
    let mut rows = Vec::new();
    for (number, slot) in (1..).zip(&slots) {
        let until = kept_until(&backups, number).unwrap_or(NO_END);
        let kept = is_kept(&backups, number, day);
        push(&mut rows, &[slot.day, slot.number, until, kept.into()]);
    }
    write(&rows, output)?;
    Ok(slots.len() as u16)
}

/// The PBN of each cell of the volume's current map.
pub fn cells(book: &[u8], volume: u16, output: &mut [u8]) -> Result<(), Refusal> {
    let book = form::check(book)?;
    let volume = enrolled(&book, volume)?;
    let mut rows = Vec::new();
    for cell in book.map(volume) {
        push(&mut rows, &[cell.0]);
    }
    write(&rows, output)
}

/// Whether it is held, count, expiry and fingerprint, for each block of the pool.
pub fn blocks(book: &[u8], output: &mut [u8]) -> Result<(), Refusal> {
    let book = form::check(book)?;
    let mut rows = Vec::new();
    for entry in book.pbns().map(|pbn| book.entry(pbn)) {
        let held = entry.state == HELD;
        push(&mut rows, &[held.into(), entry.count, entry.expiry]);
        rows.extend(entry.fingerprint);
    }
    write(&rows, output)
}

fn push(rows: &mut Vec<u8>, numbers: &[u16]) {
    rows.extend(numbers.iter().flat_map(|number| number.to_le_bytes()));
}

/// Writes the rows where the output starts, if it has room for them.
fn write(rows: &[u8], output: &mut [u8]) -> Result<(), Refusal> {
    require(output.len() >= rows.len(), Refusal::ShortOutput)?;
    output[..rows.len()].copy_from_slice(rows);
    Ok(())
}
