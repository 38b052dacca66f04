//! The converters between layouts.

use std::slice::{from_raw_parts, from_raw_parts_mut};

use reference::store::{convert, Way};

use crate::number;

#[no_mangle]
pub unsafe extern "C" fn reference_convert_1_2(
    book: *const u8,
    book_len: usize,
    out: *mut u8,
    out_len: usize,
) -> u16 {
    let book = from_raw_parts(book, book_len);
    let out = from_raw_parts_mut(out, out_len);
    number(convert(Way::OneToTwo, book, out), |()| {})
}

#[no_mangle]
pub unsafe extern "C" fn reference_convert_2_1(
    book: *const u8,
    book_len: usize,
    out: *mut u8,
    out_len: usize,
) -> u16 {
    let book = from_raw_parts(book, book_len);
    let out = from_raw_parts_mut(out, out_len);
    number(convert(Way::TwoToOne, book, out), |()| {})
}

#[no_mangle]
pub unsafe extern "C" fn reference_convert_2_3(
    book: *const u8,
    book_len: usize,
    out: *mut u8,
    out_len: usize,
) -> u16 {
    let book = from_raw_parts(book, book_len);
    let out = from_raw_parts_mut(out, out_len);
    number(convert(Way::TwoToThree, book, out), |()| {})
}
