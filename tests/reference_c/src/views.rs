//! The calls that show a book to a host.

use std::slice::{from_raw_parts, from_raw_parts_mut};

use reference::store;

use crate::number;

#[no_mangle]
pub unsafe extern "C" fn reference_sizes(
    book: *const u8,
    book_len: usize,
    blocks: *mut u16,
    cells: *mut u16,
    slots: *mut u16,
    records: *mut u16,
) -> u16 {
    let book = from_raw_parts(book, book_len);
    number(store::sizes(book), |sizes| {
        *blocks = sizes.blocks;
        *cells = sizes.lbns;
        *slots = sizes.slots;
        *records = sizes.records;
    })
}

#[no_mangle]
pub unsafe extern "C" fn reference_used(
    book: *const u8,
    book_len: usize,
    slots: *mut u16,
    records: *mut u16,
    day: *mut u16,
) -> u16 {
    let book = from_raw_parts(book, book_len);
    number(store::used(book), |used| {
        *slots = used.slots;
        *records = used.records;
        *day = used.day;
    })
}

#[no_mangle]
pub unsafe extern "C" fn reference_volume(
    book: *const u8,
    book_len: usize,
    volume: u16,
    retention: *mut u16,
    backups: *mut u16,
    retired: *mut u16,
) -> u16 {
    let book = from_raw_parts(book, book_len);
    number(store::volume(book, volume), |facts| {
        *retention = facts.retention;
        *backups = facts.backups;
        *retired = facts.retired.unwrap_or(store::NO_END);
    })
}

#[no_mangle]
pub unsafe extern "C" fn reference_backups(
    book: *const u8,
    book_len: usize,
    volume: u16,
    out: *mut u8,
    out_len: usize,
    count: *mut u16,
) -> u16 {
    let book = from_raw_parts(book, book_len);
    let out = from_raw_parts_mut(out, out_len);
    number(store::backups(book, volume, out), |answer| *count = answer)
}

#[no_mangle]
pub unsafe extern "C" fn reference_cells(
    book: *const u8,
    book_len: usize,
    volume: u16,
    out: *mut u8,
    out_len: usize,
) -> u16 {
    let book = from_raw_parts(book, book_len);
    let out = from_raw_parts_mut(out, out_len);
    number(store::cells(book, volume, out), |()| {})
}

#[no_mangle]
pub unsafe extern "C" fn reference_blocks(
    book: *const u8,
    book_len: usize,
    out: *mut u8,
    out_len: usize,
) -> u16 {
    let book = from_raw_parts(book, book_len);
    let out = from_raw_parts_mut(out, out_len);
    number(store::blocks(book, out), |()| {})
}
