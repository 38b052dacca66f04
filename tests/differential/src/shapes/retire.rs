//! Shapes of retirements on books in form, with a spare as asked.

use reference::keeping::last_day;
use reference::layout::{Book, Header, Pbn, Record, Slot, DAY_MAX, UNMAPPED, VOLUMES};

use super::replaced::Replaced;
use super::Shape;
use crate::seen::Seen;

type View<'a> = Book<&'a [u8]>;

/// Of a call that was refused by 5, on a book in form.
pub fn refused_volume(book: &[u8], volume: u16) -> [Shape; 3] {
    let view = Book::over(book);
    let there = volume < u16::from(VOLUMES);
    let retired = there && view.retired_on(volume as u8).is_some();
    [
        ("5 for volume 8", volume == 8),
        ("5 for a volume that isn't enrolled", there && !retired),
        ("5 for a volume that is retired", retired),
    ]
}

/// A retirement of an enrolled volume that isn't retired.
pub struct Retired<'a> {
    before: View<'a>,
    after: View<'a>,
    volume: u8,
    day: u16,
    number: u16,
    /// The volume's backups.
    slots: Vec<Slot>,
    /// The blocks that its map names, by LBN.
    blocks: Vec<Pbn>,
    /// The records that were added.
    added: Vec<Record>,
}

impl<'a> Retired<'a> {
    pub fn new(book: &'a [u8], (volume, day): (u16, u16), seen: &'a Seen) -> Self {
        let (before, after) = (Book::over(book), Book::over(seen.content(0)));
        let used = |book: &View| usize::from(book.header(Header::RecordsUsed));
        let added = used(&before)..used(&after);
        let volume = volume as u8;
        let map = before.map(volume).into_iter();
        Retired {
            slots: before.backup_slots_of(volume),
            blocks: map.filter(|&cell| cell != UNMAPPED).collect(),
            added: added.map(|index| after.record(index)).collect(),
            before,
            after,
            volume,
            day,
            number: seen.number,
        }
    }

    fn accepted(&self) -> bool {
        self.number == 0
    }

    /// Of the cells of an accepted retirement.
    pub fn cell_shapes(&self) -> [Shape; 8] {
        let (accepted, cells) = (self.accepted(), self.blocks.len());
        let lbns = usize::from(self.before.sizes().lbns);
        let without = accepted && cells == 0;
        [
            ("no backups", without && self.slots.is_empty()),
            ("backups, and no cell", without && !self.slots.is_empty()),
            ("one cell", accepted && cells == 1),
            ("some cells", accepted && 1 < cells && cells < lbns),
            (
                "all cells of several",
                accepted && 1 < lbns && cells == lbns,
            ),
            ("1,024 cells", accepted && cells == 1_024),
            ("cells of one block", accepted && self.names_one_twice()),
            ("a block that another volume has too", self.shares()),
        ]
    }

    fn names_one_twice(&self) -> bool {
        let mut blocks = self.blocks.clone();
        blocks.sort_unstable();
        blocks.windows(2).any(|two| two[0] == two[1])
    }

    fn shares(&self) -> bool {
        let mut others = (0..VOLUMES).filter(|&volume| volume != self.volume);
        let mut names = |pbn| others.any(|volume| self.before.map(volume).contains(&pbn));
        self.accepted() && self.blocks.first().is_some_and(|&pbn| names(pbn))
    }

    /// What it unmapped.
    pub fn replaced(&self) -> Replaced<'_> {
        Replaced::new(&self.before, &self.after, self.volume, &self.added)
    }

    /// Of the newest backup, which isn't exempt any more.
    pub fn newest_shapes(&self) -> [Shape; 4] {
        let retention = self.before.retention(self.volume);
        let newest = self.slots.last().filter(|_| self.accepted());
        let last = newest.map(|slot| last_day(slot.day, retention));
        let is = |is: fn(u16, u16) -> bool| last.is_some_and(|last| is(last, self.day));
        [
            ("the newest is kept on", is(|last, day| last > day)),
            (
                "the newest is kept to this day",
                is(|last, day| last == day),
            ),
            (
                "the newest went the day before",
                is(|last, day| last + 1 == day),
            ),
            ("the newest is gone at once", is(|last, day| last < day)),
        ]
    }

    /// Of the room, the day and the other volumes of an accepted retirement.
    pub fn accepted_shapes(&self) -> [Shape; 8] {
        let accepted = self.accepted();
        let (day, day_before) = (self.day, self.before.header(Header::Day));
        let sizes = self.after.sizes();
        let last_slot = self.after.header(Header::SlotsUsed) == sizes.slots;
        let last_record = self.after.header(Header::RecordsUsed) == sizes.records;
        let others = (0..VOLUMES).filter(|&volume| volume != self.volume);
        let enrolled = others.filter(|&volume| self.before.retention(volume) != 0);
        let retired: Vec<bool> = enrolled
            .map(|volume| self.before.retired_on(volume).is_some())
            .collect();
        [
            ("the last slot is used", accepted && last_slot),
            (
                "the last record is used",
                !self.added.is_empty() && last_record,
            ),
            ("the day stays", accepted && day == day_before),
            ("the day goes on", accepted && day > day_before),
            ("the day is 60,000", accepted && day == DAY_MAX),
            (
                "the first that is retired",
                accepted && retired.contains(&false) && !retired.contains(&true),
            ),
            (
                "not the first that is retired",
                accepted && retired.contains(&true),
            ),
            (
                "the last volume",
                accepted && retired.len() > 1 && !retired.contains(&false),
            ),
        ]
    }

    pub fn refused_shapes(&self) -> [Shape; 10] {
        let (day, day_before) = (self.day, self.before.header(Header::Day));
        let by_day = self.number == 7;
        let on_its_day = self.slots.last().is_some_and(|slot| slot.day == day);
        let used = usize::from(self.before.header(Header::RecordsUsed));
        let left = usize::from(self.before.sizes().records) - used;
        let (by_room, cells) = (self.number == 10, self.blocks.len());
        let stopped = self.number == 13;
        let count = |pbn: Pbn| self.before.entry(pbn).count;
        let first = self.blocks.first().is_some_and(|&pbn| count(pbn) == 0);
        let uncounted = self.blocks.iter().any(|&pbn| count(pbn) == 0);
        [
            ("7 for a day before the book's", by_day && day < day_before),
            ("7 for a day above 60,000", by_day && day > DAY_MAX),
            (
                "7 on the day of its last backup",
                by_day && on_its_day && day >= day_before,
            ),
            ("9 without a cell", self.number == 9 && cells == 0),
            ("9 with cells", self.number == 9 && cells > 0),
            ("10 by one cell", by_room && cells == left + 1),
            ("10 with records left", by_room && left > 0),
            ("13 at the first cell", stopped && first),
            ("13 at a later cell", stopped && !first && uncounted),
            (
                "13 by a block that is named more often than counted",
                stopped && !uncounted,
            ),
        ]
    }
}
