//! The functions of `include/aspen.h` on both sides: the archives', and the reference's.

use reference_c::{
    reference_audit, reference_backup, reference_backups, reference_blocks, reference_cells,
    reference_collect, reference_convert_1_2, reference_convert_2_1, reference_convert_2_3,
    reference_count, reference_enrol, reference_form, reference_format, reference_play,
    reference_read, reference_restore, reference_retire, reference_sizes, reference_used,
    reference_volume, reference_write_list,
};

type Format = unsafe extern "C" fn(*mut u8, usize, u16, u16, u16, u16) -> u16;
type Enrol = unsafe extern "C" fn(*mut u8, usize, u16, u16) -> u16;
type Backup = unsafe extern "C" fn(
    book: *mut u8,
    book_len: usize,
    pool: *mut u8,
    pool_len: usize,
    spare: *mut u8,
    spare_len: usize,
    volume: u16,
    day: u16,
    list: *const u8,
    list_len: usize,
    number: *mut u16,
    taken: *mut u16,
    touched: *mut u16,
) -> u16;
type Retire = unsafe extern "C" fn(*mut u8, usize, *mut u8, usize, u16, u16, *mut u16) -> u16;
type Collect = unsafe extern "C" fn(*mut u8, usize, u16, *mut u16) -> u16;
type Read =
    unsafe extern "C" fn(*const u8, usize, *const u8, usize, u16, u16, u16, *mut u32) -> u16;
type Restore = unsafe extern "C" fn(
    book: *const u8,
    book_len: usize,
    pool: *const u8,
    pool_len: usize,
    volume: u16,
    number: u16,
    first: u16,
    length: u16,
    out: *mut u8,
    out_len: usize,
) -> u16;
type Audit = unsafe extern "C" fn(*const u8, usize, *mut u16) -> u16;
type Form = unsafe extern "C" fn(*const u8, usize) -> u16;
type Count = unsafe extern "C" fn(*const u8, usize, *mut u16, *mut u16, *mut u16, *mut u32) -> u16;
type Sizes = unsafe extern "C" fn(*const u8, usize, *mut u16, *mut u16, *mut u16, *mut u16) -> u16;
type Used = unsafe extern "C" fn(*const u8, usize, *mut u16, *mut u16, *mut u16) -> u16;
type Volume = unsafe extern "C" fn(*const u8, usize, u16, *mut u16, *mut u16, *mut u16) -> u16;
type Backups = unsafe extern "C" fn(*const u8, usize, u16, *mut u8, usize, *mut u16) -> u16;
type Cells = unsafe extern "C" fn(*const u8, usize, u16, *mut u8, usize) -> u16;
type Blocks = unsafe extern "C" fn(*const u8, usize, *mut u8, usize) -> u16;
type Play = unsafe extern "C" fn(
    book: *mut u8,
    book_len: usize,
    pool: *mut u8,
    pool_len: usize,
    spare: *mut u8,
    spare_len: usize,
    calls: *const u8,
    calls_len: usize,
    answers: *mut u8,
    answers_len: usize,
    written: *mut u32,
) -> u16;
type WriteList = unsafe extern "C" fn(
    l: u16,
    marks: *const u8,
    marks_len: usize,
    prints: *const u8,
    prints_len: usize,
    image: *const u8,
    image_len: usize,
    list: *mut u8,
    list_len: usize,
    written: *mut u32,
) -> u16;
type Convert = unsafe extern "C" fn(*const u8, usize, *mut u8, usize) -> u16;

pub struct Interface {
    pub format: Format,
    pub enrol: Enrol,
    pub backup: Backup,
    pub retire: Retire,
    pub collect: Collect,
    pub read: Read,
    pub restore: Restore,
    pub audit: Audit,
    pub form: Form,
    pub count: Count,
    pub sizes: Sizes,
    pub used: Used,
    pub volume: Volume,
    pub backups: Backups,
    pub cells: Cells,
    pub blocks: Blocks,
    pub play: Play,
    pub write_list: WriteList,
    pub convert_1_2: Convert,
    pub convert_2_1: Convert,
    pub convert_2_3: Convert,
}

mod archive {
    unsafe extern "C" {
        pub fn aspen_format(book: *mut u8, len: usize, n: u16, l: u16, s: u16, j: u16) -> u16;
        pub fn aspen_enrol(book: *mut u8, len: usize, volume: u16, retention: u16) -> u16;
        pub fn aspen_backup(
            book: *mut u8,
            book_len: usize,
            pool: *mut u8,
            pool_len: usize,
            spare: *mut u8,
            spare_len: usize,
            volume: u16,
            day: u16,
            list: *const u8,
            list_len: usize,
            number: *mut u16,
            taken: *mut u16,
            touched: *mut u16,
        ) -> u16;
        pub fn aspen_retire(
            book: *mut u8,
            book_len: usize,
            spare: *mut u8,
            spare_len: usize,
            volume: u16,
            day: u16,
            cells: *mut u16,
        ) -> u16;
        pub fn aspen_collect(book: *mut u8, len: usize, day: u16, freed: *mut u16) -> u16;
        pub fn aspen_read(
            book: *const u8,
            book_len: usize,
            pool: *const u8,
            pool_len: usize,
            volume: u16,
            number: u16,
            lbn: u16,
            at: *mut u32,
        ) -> u16;
        pub fn aspen_restore(
            book: *const u8,
            book_len: usize,
            pool: *const u8,
            pool_len: usize,
            volume: u16,
            number: u16,
            first: u16,
            length: u16,
            out: *mut u8,
            out_len: usize,
        ) -> u16;
        pub fn aspen_audit(book: *const u8, len: usize, sound: *mut u16) -> u16;
        pub fn aspen_form(book: *const u8, len: usize) -> u16;
        pub fn aspen_count(
            book: *const u8,
            len: usize,
            blocks: *mut u16,
            held: *mut u16,
            waiting: *mut u16,
            references: *mut u32,
        ) -> u16;
        pub fn aspen_sizes(
            book: *const u8,
            len: usize,
            blocks: *mut u16,
            cells: *mut u16,
            slots: *mut u16,
            records: *mut u16,
        ) -> u16;
        pub fn aspen_used(
            book: *const u8,
            len: usize,
            slots: *mut u16,
            records: *mut u16,
            day: *mut u16,
        ) -> u16;
        pub fn aspen_volume(
            book: *const u8,
            len: usize,
            volume: u16,
            retention: *mut u16,
            backups: *mut u16,
            retired: *mut u16,
        ) -> u16;
        pub fn aspen_backups(
            book: *const u8,
            len: usize,
            volume: u16,
            out: *mut u8,
            out_len: usize,
            count: *mut u16,
        ) -> u16;
        pub fn aspen_cells(
            book: *const u8,
            len: usize,
            volume: u16,
            out: *mut u8,
            out_len: usize,
        ) -> u16;
        pub fn aspen_blocks(book: *const u8, len: usize, out: *mut u8, out_len: usize) -> u16;
        pub fn aspen_play(
            book: *mut u8,
            book_len: usize,
            pool: *mut u8,
            pool_len: usize,
            spare: *mut u8,
            spare_len: usize,
            calls: *const u8,
            calls_len: usize,
            answers: *mut u8,
            answers_len: usize,
            written: *mut u32,
        ) -> u16;
        pub fn aspen_write_list(
            l: u16,
            marks: *const u8,
            marks_len: usize,
            prints: *const u8,
            prints_len: usize,
            image: *const u8,
            image_len: usize,
            list: *mut u8,
            list_len: usize,
            written: *mut u32,
        ) -> u16;
        pub fn aspen_convert_1_2(book: *const u8, len: usize, out: *mut u8, out_len: usize) -> u16;
        pub fn aspen_convert_2_1(book: *const u8, len: usize, out: *mut u8, out_len: usize) -> u16;
        pub fn aspen_convert_2_3(book: *const u8, len: usize, out: *mut u8, out_len: usize) -> u16;
    }
}

pub const ARCHIVE: Interface = Interface {
    format: archive::aspen_format,
    enrol: archive::aspen_enrol,
    backup: archive::aspen_backup,
    retire: archive::aspen_retire,
    collect: archive::aspen_collect,
    read: archive::aspen_read,
    restore: archive::aspen_restore,
    audit: archive::aspen_audit,
    form: archive::aspen_form,
    count: archive::aspen_count,
    sizes: archive::aspen_sizes,
    used: archive::aspen_used,
    volume: archive::aspen_volume,
    backups: archive::aspen_backups,
    cells: archive::aspen_cells,
    blocks: archive::aspen_blocks,
    play: archive::aspen_play,
    write_list: archive::aspen_write_list,
    convert_1_2: archive::aspen_convert_1_2,
    convert_2_1: archive::aspen_convert_2_1,
    convert_2_3: archive::aspen_convert_2_3,
};

pub const REFERENCE: Interface = Interface {
    format: reference_format,
    enrol: reference_enrol,
    backup: reference_backup,
    retire: reference_retire,
    collect: reference_collect,
    read: reference_read,
    restore: reference_restore,
    audit: reference_audit,
    form: reference_form,
    count: reference_count,
    sizes: reference_sizes,
    used: reference_used,
    volume: reference_volume,
    backups: reference_backups,
    cells: reference_cells,
    blocks: reference_blocks,
    play: reference_play,
    write_list: reference_write_list,
    convert_1_2: reference_convert_1_2,
    convert_2_1: reference_convert_2_1,
    convert_2_3: reference_convert_2_3,
};
