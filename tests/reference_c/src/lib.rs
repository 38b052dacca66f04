//! The second implementation behind the C interface of `include/aspen.h`, each function under a
//! name with `reference_` in place of `aspen_`. `reference.h` declares them.
//!
//! # Safety
//! As the header says: pointers aren't null, buffers are as long as said and don't overlap.
#![allow(clippy::missing_safety_doc, clippy::too_many_arguments)]

mod convert;
mod make;
mod views;

pub use convert::{reference_convert_1_2, reference_convert_2_1, reference_convert_2_3};
pub use make::{reference_make, Made};
pub use views::{
    reference_backups, reference_blocks, reference_cells, reference_sizes, reference_used,
    reference_volume,
};

use std::slice::{from_raw_parts, from_raw_parts_mut};

use reference::change_list;
use reference::form;
use reference::layout::Sizes;
use reference::play;
use reference::refusal::Refusal;
use reference::store::{self, Run};
use reference::tally;

/// The number of a result; an accepted one's answer goes to `write`.
fn number<T>(result: Result<T, Refusal>, write: impl FnOnce(T)) -> u16 {
    match result {
        Ok(answer) => {
            write(answer);
            0
        }
        Err(refusal) => refusal.number(),
    }
}

#[no_mangle]
pub unsafe extern "C" fn reference_format(
    book: *mut u8,
    book_len: usize,
    n: u16,
    l: u16,
    s: u16,
    j: u16,
) -> u16 {
    let sizes = Sizes {
        blocks: n,
        lbns: l,
        slots: s,
        records: j,
    };
    let book = from_raw_parts_mut(book, book_len);
    number(store::format(book, sizes), |()| {})
}

#[no_mangle]
pub unsafe extern "C" fn reference_enrol(
    book: *mut u8,
    book_len: usize,
    volume: u16,
    retention: u16,
) -> u16 {
    let book = from_raw_parts_mut(book, book_len);
    number(store::enrol(book, volume, retention), |()| {})
}

#[no_mangle]
pub unsafe extern "C" fn reference_backup(
    book: *mut u8,
    book_len: usize,
    pool: *mut u8,
    pool_len: usize,
    spare: *mut u8,
    spare_len: usize,
    volume: u16,
    day: u16,
    list: *const u8,
    list_len: usize,
    backup_number: *mut u16,
    taken: *mut u16,
    touched: *mut u16,
) -> u16 {
    let book = from_raw_parts_mut(book, book_len);
    let pool = from_raw_parts_mut(pool, pool_len);
    let spare = from_raw_parts_mut(spare, spare_len);
    let list = from_raw_parts(list, list_len);
    let result = store::backup(book, pool, spare, volume, day, list);
    number(result, |answer| {
        *backup_number = answer.number;
        *taken = answer.taken;
        *touched = answer.touched;
    })
}

#[no_mangle]
pub unsafe extern "C" fn reference_retire(
    book: *mut u8,
    book_len: usize,
    spare: *mut u8,
    spare_len: usize,
    volume: u16,
    day: u16,
    cells: *mut u16,
) -> u16 {
    let book = from_raw_parts_mut(book, book_len);
    let spare = from_raw_parts_mut(spare, spare_len);
    let result = store::retire(book, spare, volume, day);
    number(result, |answer| *cells = answer)
}

#[no_mangle]
pub unsafe extern "C" fn reference_collect(
    book: *mut u8,
    book_len: usize,
    day: u16,
    freed: *mut u16,
) -> u16 {
    let book = from_raw_parts_mut(book, book_len);
    number(store::collect(book, day), |answer| *freed = answer)
}

#[no_mangle]
pub unsafe extern "C" fn reference_read(
    book: *const u8,
    book_len: usize,
    pool: *const u8,
    pool_len: usize,
    volume: u16,
    backup_number: u16,
    lbn: u16,
    at: *mut u32,
) -> u16 {
    let book = from_raw_parts(book, book_len);
    let pool = from_raw_parts(pool, pool_len);
    let result = store::locate(book, pool, volume, backup_number, lbn);
    number(result, |pbn| *at = pbn.pool_range().start as u32)
}

#[no_mangle]
pub unsafe extern "C" fn reference_restore(
    book: *const u8,
    book_len: usize,
    pool: *const u8,
    pool_len: usize,
    volume: u16,
    backup_number: u16,
    first: u16,
    length: u16,
    out: *mut u8,
    out_len: usize,
) -> u16 {
    let book = from_raw_parts(book, book_len);
    let pool = from_raw_parts(pool, pool_len);
    let out = from_raw_parts_mut(out, out_len);
    let run = Run {
        volume,
        number: backup_number,
        first,
        length,
    };
    number(store::restore(book, pool, run, out), |()| {})
}

#[no_mangle]
pub unsafe extern "C" fn reference_audit(book: *const u8, book_len: usize, sound: *mut u16) -> u16 {
    let book = from_raw_parts(book, book_len);
    number(store::audit(book), |answer| *sound = u16::from(answer))
}

#[no_mangle]
pub unsafe extern "C" fn reference_form(book: *const u8, book_len: usize) -> u16 {
    let book = from_raw_parts(book, book_len);
    number(form::check(book), |_| {})
}

#[no_mangle]
pub unsafe extern "C" fn reference_count(
    book: *const u8,
    book_len: usize,
    blocks: *mut u16,
    held: *mut u16,
    waiting: *mut u16,
    references: *mut u32,
) -> u16 {
    let book = from_raw_parts(book, book_len);
    number(tally::counts(book), |counts| {
        *blocks = counts.blocks;
        *held = counts.held;
        *waiting = counts.waiting;
        *references = counts.references;
    })
}

#[no_mangle]
pub unsafe extern "C" fn reference_write_list(
    l: u16,
    marks: *const u8,
    marks_len: usize,
    prints: *const u8,
    prints_len: usize,
    image: *const u8,
    image_len: usize,
    list: *mut u8,
    list_len: usize,
    written: *mut u32,
) -> u16 {
    let marks = from_raw_parts(marks, marks_len);
    let prints = from_raw_parts(prints, prints_len);
    let image = from_raw_parts(image, image_len);
    let list = from_raw_parts_mut(list, list_len);
    let result = change_list::write(l, marks, prints, image, list);
    number(result, |answer| *written = answer)
}

#[no_mangle]
pub unsafe extern "C" fn reference_play(
    book: *mut u8,
    book_len: usize,
    pool: *mut u8,
    pool_len: usize,
    spare: *mut u8,
    spare_len: usize,
    calls: *const u8,
    calls_len: usize,
    answers: *mut u8,
    answers_len: usize,
    written: *mut u32,
) -> u16 {
    let book = from_raw_parts_mut(book, book_len);
    let pool = from_raw_parts_mut(pool, pool_len);
    let spare = from_raw_parts_mut(spare, spare_len);
    let calls = from_raw_parts(calls, calls_len);
    let answers = from_raw_parts_mut(answers, answers_len);
    let result = play::play(book, pool, spare, calls, answers);
    number(result, |answer| *written = answer)
}
