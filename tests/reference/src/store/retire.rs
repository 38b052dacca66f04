//! Retire: an aid leaves the clinic, and its volume takes no more backups.

use super::living;
use super::taking::{check_room, check_slot_day, Taking};
use crate::form;
use crate::layout::{Lbn, Record, RETIREMENT, UNMAPPED};
use crate::refusal::{require, Refusal};

/// Unmaps the volume's map by the records of a last slot; answers how many cells it had.
pub fn retire(book: &mut [u8], spare: &mut [u8], volume: u16, day: u16) -> Result<u16, Refusal> {
    let view = form::check(book)?;
    require(spare.len() >= book.len(), Refusal::Spare)?;
    let volume = living(&view, volume)?;
    check_slot_day(&view, volume, day)?;
    let mapped = |lbn: &Lbn| view.cell(volume, *lbn) != UNMAPPED;
    let mapped: Vec<Lbn> = view.lbns().filter(mapped).collect();
    check_room(&view, mapped.len())?;
    let cells = mapped.len() as u16;

    let mut taking = Taking::start(book, spare, volume, day);
    for lbn in mapped {
        let before = taking.book.cell(volume, lbn);
        taking.lower(before)?;
        taking.change(Record {
            lbn,
            before,
            after: UNMAPPED,
        });
    }
    taking.finish(RETIREMENT, cells);
    book.copy_from_slice(&spare[..book.len()]);
    Ok(cells)
}
