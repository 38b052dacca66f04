//! Shapes of the calls that show a book.

use reference::layout::{Book, Header};
use reference::store::NO_END;
use reference::view::View;

use super::Shape;
use crate::request::Viewed;
use crate::seen::Seen;

fn numbers(row: &[u8]) -> Vec<u16> {
    let pairs = row.chunks_exact(2);
    pairs.map(|p| u16::from_le_bytes([p[0], p[1]])).collect()
}

/// Of the three that write rows.
pub fn output(viewed: &Viewed, number: u16) -> [Shape; 5] {
    let (room, exact) = (viewed.output.len(), viewed.view.output_bytes(viewed.book));
    let (short, accepted) = (number == 20, number == 0);
    [
        ("an empty output", short && room == 0),
        ("an output one byte short", short && room + 1 == exact),
        ("an output of just the length", accepted && room == exact),
        ("an output one byte longer", accepted && room == exact + 1),
        ("a much longer output", accepted && room > exact + 100),
    ]
}

/// Of the three that take a volume.
pub fn volume(volume: u16, number: u16) -> [Shape; 3] {
    let refused = number == 5;
    [
        ("volume 8", refused && volume == 8),
        ("volume 256", refused && volume == 256),
        ("a volume that isn't enrolled", refused && volume < 8),
    ]
}

/// The rows that an accepted call wrote.
fn rows_of<'a>(viewed: &Viewed, seen: &'a Seen) -> &'a [u8] {
    let (exact, output) = (viewed.view.output_bytes(viewed.book), seen.content(1));
    &output[..exact.min(output.len())]
}

/// Of an accepted call on a retired volume.
pub fn retired(viewed: &Viewed, seen: &Seen) -> Vec<Shape> {
    match viewed.view {
        View::Volume { .. } => retired_facts(seen).into(),
        View::Backups { volume } => {
            retired_backups(viewed.book, volume, rows_of(viewed, seen)).into()
        }
        _ => Vec::new(),
    }
}

/// Of an accepted call.
pub fn shown(viewed: &Viewed, seen: &Seen) -> Vec<Shape> {
    let rows = || rows_of(viewed, seen);
    match viewed.view {
        View::Sizes => sizes(seen).into(),
        View::Used => used(viewed.book, seen).into(),
        View::Volume { .. } => facts(seen).into(),
        View::Backups { volume } => backups(viewed.book, volume, rows()).into(),
        View::Cells { .. } => cells(rows()).into(),
        View::Blocks => blocks(rows()).into(),
    }
}

fn sizes(seen: &Seen) -> [Shape; 4] {
    let sizes: [u32; 4] = std::array::from_fn(|index| seen.answer(index));
    let [blocks, cells, ..] = sizes;
    [
        ("more blocks than cells", blocks > cells),
        ("more cells than blocks", blocks < cells),
        ("all of them smallest", sizes == [1; 4]),
        (
            "all of them largest",
            sizes == [4_096, 1_024, 1_024, 16_384],
        ),
    ]
}

fn used(book: &[u8], seen: &Seen) -> [Shape; 5] {
    let sizes = Book::over(book).sizes();
    let [slots, records, day] = std::array::from_fn(|index| seen.answer(index));
    [
        ("nothing", (slots, records, day) == (0, 0, 0)),
        ("slots and no records", slots > 0 && records == 0),
        ("all slots", slots == sizes.slots.into()),
        ("all records", records == sizes.records.into()),
        ("day 60,000", day == 60_000),
    ]
}

fn facts(seen: &Seen) -> [Shape; 5] {
    let [retention, backups] = std::array::from_fn(|index| seen.answer(index));
    [
        ("kept for 1 day", retention == 1),
        ("kept for 5,000 days", retention == 5_000),
        ("without backups", backups == 0),
        ("with one backup", backups == 1),
        ("with several", backups > 1),
    ]
}

fn retired_facts(seen: &Seen) -> [Shape; 5] {
    let [_, backups, retired] = std::array::from_fn(|index| seen.answer(index));
    let is_retired = retired != u32::from(NO_END);
    [
        ("not retired", !is_retired),
        ("retired", is_retired && backups > 0),
        ("retired without backups", is_retired && backups == 0),
        ("retired on day 0", retired == 0),
        ("retired on day 60,000", retired == 60_000),
    ]
}

fn backups(book: &[u8], volume: u16, rows: &[u8]) -> [Shape; 11] {
    let book = Book::over(book);
    let book_day = u32::from(book.header(Header::Day));
    let retention = u32::from(book.retention(volume as u8));
    let rows = backup_rows(rows);
    let (newest, older) = match rows.split_last() {
        Some((newest, older)) => (Some(newest), older),
        None => (None, &rows[..]),
    };
    let any = |is: fn(&[u16; 4]) -> bool| older.iter().any(is);
    let ended_on = |day: u32| older.iter().any(|row| u32::from(row[2]) == day);
    let reaches = |row: &[u16; 4]| u32::from(row[0]) + retention >= book_day;
    let gone = || rows.windows(2).filter(|pair| pair[0][3] == 0);
    let is_retired = book.retired_on(volume as u8).is_some();
    [
        ("a volume without backups", rows.is_empty()),
        ("the newest", newest.is_some()),
        ("an older one that is kept", any(|row| row[3] == 1)),
        ("one that isn't kept any more", any(|row| row[3] == 0)),
        ("on the last day kept", ended_on(book_day)),
        ("on the day after", ended_on(book_day.wrapping_sub(1))),
        (
            "one that is gone, though the next one's day reaches",
            gone().any(|pair| reaches(&pair[1])),
        ),
        (
            "one that is gone on the next one's very day",
            gone().any(|pair| u32::from(pair[1][0]) == book_day),
        ),
        (
            "the newest, long after",
            !is_retired && newest.is_some_and(|row| !reaches(row)),
        ),
        ("one without changes", any(|row| row[1] == 0)),
        ("one of 1,024 changes", any(|row| row[1] == 1_024)),
    ]
}

fn backup_rows(rows: &[u8]) -> Vec<[u16; 4]> {
    let rows = rows.chunks_exact(8);
    rows.map(|row| numbers(row).try_into().expect("four numbers"))
        .collect()
}

/// The backups of a retired volume.
fn retired_backups(book: &[u8], volume: u16, rows: &[u8]) -> [Shape; 4] {
    let book = Book::over(book);
    let is_retired = book.retired_on(volume as u8).is_some();
    let rows = backup_rows(rows);
    let newest = rows.last().filter(|_| is_retired);
    let is = |kept: u16| newest.is_some_and(|row| row[3] == kept);
    let last_day = newest.is_some_and(|row| row[2] == book.header(Header::Day));
    [
        (
            "a retired volume without backups",
            is_retired && rows.is_empty(),
        ),
        ("the newest of a retired volume", is(1)),
        (
            "the newest of a retired volume on its last day",
            is(1) && last_day,
        ),
        ("the newest of a retired volume, not kept any more", is(0)),
    ]
}

fn cells(rows: &[u8]) -> [Shape; 4] {
    let cells = numbers(rows);
    let unmapped = cells.iter().filter(|&&cell| cell == 65_535).count();
    [
        ("a mapped cell", unmapped < cells.len()),
        ("an unmapped cell", unmapped > 0),
        ("a map without a block", unmapped == cells.len()),
        ("1,024 cells", cells.len() == 1_024),
    ]
}

fn blocks(rows: &[u8]) -> [Shape; 9] {
    let rows: Vec<(Vec<u16>, &[u8])> = rows
        .chunks_exact(22)
        .map(|row| (numbers(&row[..6]), &row[6..]))
        .collect();
    let any = |is: fn(u16, u16, u16) -> bool| rows.iter().any(|(n, _)| is(n[0], n[1], n[2]));
    let zero = |(numbers, print): &(Vec<u16>, &[u8])| numbers[0] == 1 && *print == [0; 16];
    [
        ("a free block", any(|held, _, _| held == 0)),
        (
            "a free block that had a day of expiry",
            any(|held, _, expiry| held == 0 && expiry > 0),
        ),
        (
            "a waiting block",
            any(|held, count, _| held == 1 && count == 0),
        ),
        ("a block in use", any(|_, count, _| count > 0)),
        ("a count above 255", any(|_, count, _| count > 255)),
        ("a count of 65,535", any(|_, count, _| count == 65_535)),
        ("an expiry of 65,000", any(|_, _, expiry| expiry == 65_000)),
        (
            "a held block with a zero fingerprint",
            rows.iter().any(zero),
        ),
        ("4,096 blocks", rows.len() == 4_096),
    ]
}
