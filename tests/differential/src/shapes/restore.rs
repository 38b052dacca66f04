//! Shapes of restores.

use reference::layout::{Book, Lbn, Pbn, Record, Slot, UNMAPPED};
use reference::store::Run;

use super::days::{self, Days};
use super::{Shape, MOST};
use crate::request::Restoring;

/// What decides on an LBN of the run.
struct Cell {
    /// The befores of its records in later backups of the volume, oldest first.
    befores: Vec<Pbn>,
    map: Pbn,
    /// Whether another volume's later backup has a record of it.
    of_others: bool,
}

impl Cell {
    fn block(&self) -> Pbn {
        self.befores.first().copied().unwrap_or(self.map)
    }
}

/// A restore that came as far as 5.
pub struct Restored {
    number: u16,
    run: Run,
    lbns: u32,
    room: usize,
    newest: bool,
    days: Option<Days>,
    /// Those of the run's LBNs that the volume has.
    cells: Vec<Cell>,
}

impl Restored {
    pub fn new(restoring: &Restoring, number: u16) -> Self {
        let (run, view) = (restoring.run, Book::over(&restoring.stored.book[..]));
        let volume = run.volume.min(7) as u8;
        let slots = view.used_slots_of(volume);
        let newest = view.backup_slots_of(volume).len();
        let later = slots.get(usize::from(run.number)..).unwrap_or(&[]);
        Restored {
            number,
            run,
            lbns: view.sizes().lbns.into(),
            room: restoring.output.len(),
            newest: usize::from(run.number) == newest,
            days: Days::new(&view, volume, run.number),
            cells: cells(&view, volume, run, later),
        }
    }

    fn accepted(&self) -> bool {
        self.number == 0
    }

    fn is_past_end(&self) -> bool {
        self.run.end() > self.lbns
    }

    fn is_short(&self) -> bool {
        self.room < self.run.bytes()
    }

    fn any(&self, is: impl Fn(&Cell) -> bool) -> bool {
        self.cells.iter().any(is)
    }

    /// The run that was asked for, and where it went.
    pub fn run_shapes(&self) -> Vec<Shape> {
        let accepted = self.accepted();
        let (run, length) = (self.run, usize::from(self.run.length));
        let none = accepted && length == 0;
        let (room, bytes) = (self.room, run.bytes());
        let all = accepted && run.first == 0 && run.end() == self.lbns;
        vec![
            ("no block", none),
            ("no block, after the last", none && run.end() == self.lbns),
            ("no block, and no room", none && room == 0),
            ("one block", accepted && length == 1),
            ("some blocks", accepted && (2..=MOST).contains(&length)),
            ("more than a list's run has", accepted && length > MOST),
            ("the whole volume", all),
            ("all of 1,024 blocks", all && length == 1_024),
            (
                "up to the last block, and not from the first",
                accepted && length > 0 && run.first > 0 && run.end() == self.lbns,
            ),
            ("an output of just the run", accepted && room == bytes),
            ("an output one byte longer", accepted && room == bytes + 1),
            ("a much longer output", accepted && room > bytes + 100),
        ]
    }

    /// Where the blocks of an accepted run were found.
    pub fn found_shapes(&self) -> Vec<Shape> {
        let found = self.accepted() && !self.cells.is_empty();
        let by_record = |cell: &Cell| !cell.befores.is_empty();
        let several = |cell: &Cell| {
            let (first, last) = (cell.befores.first(), cell.befores.last());
            cell.befores.len() > 1 && first != last
        };
        let mut blocks: Vec<u16> = self.cells.iter().map(|cell| cell.block().0).collect();
        blocks.sort_unstable();
        let some_by_map = self.any(|cell| !by_record(cell));
        vec![
            ("the newest backup", found && self.newest),
            ("an older one, by records", found && self.any(by_record)),
            (
                "an older one, by the map alone",
                found && !self.newest && !self.any(by_record),
            ),
            (
                "by records and by the map",
                found && self.any(by_record) && some_by_map,
            ),
            (
                "several records of an LBN, with other blocks",
                found && self.any(several),
            ),
            (
                "other volumes' later records of an LBN",
                found && !self.newest && self.any(|cell| cell.of_others),
            ),
            (
                "one block at two LBNs",
                found && blocks.windows(2).any(|pair| pair[0] == pair[1]),
            ),
        ]
    }

    pub fn day_shapes(&self) -> [Shape; 6] {
        days::shapes(self.days.as_ref(), self.number)
    }

    pub fn retired_shapes(&self) -> [Shape; 6] {
        days::retired_shapes(self.days.as_ref(), self.number)
    }

    /// By 21: the end, the room, or both.
    pub fn refused_shapes(&self) -> Vec<Shape> {
        let (run, length) = (self.run, self.run.length);
        let (past, short) = (self.is_past_end(), self.is_short());
        let bad = self.number == 21;
        let (by_end, by_room) = (bad && past && !short, bad && short && !past);
        let unmapped = self.any(|cell| cell.block() == UNMAPPED);
        let one_past = length > 0 && run.end() == self.lbns + 1;
        vec![
            ("21 by the end alone", by_end),
            ("21 by the room alone", by_room),
            ("21 by both", bad && past && short),
            ("21 by the end, where 18 would come", by_end && unmapped),
            ("21 by the room, where 18 would come", by_room && unmapped),
            ("21 by one block past the end", by_end && one_past),
            ("21 for no block past the end", bad && length == 0),
            (
                "21 by an end above 65,535, alone",
                by_end && run.end() > 65_535,
            ),
        ]
    }

    /// By 21 for the room alone, which is enough for something else.
    pub fn room_shapes(&self) -> Vec<Shape> {
        let (bytes, room) = (self.run.bytes(), self.room);
        let by_room = self.number == 21 && self.is_short() && !self.is_past_end();
        let enough_for = |other: usize| by_room && other <= room;
        vec![
            ("21 by one byte of room", by_room && room + 1 == bytes),
            (
                "21 by room for a byte a block",
                enough_for(self.run.length.into()),
            ),
            (
                "21 by room for what 16 bits have of the bytes",
                enough_for(bytes % 65_536),
            ),
        ]
    }

    /// By 18: where the first unmapped cell is, and what says so.
    pub fn unmapped_shapes(&self) -> Vec<Shape> {
        let refused = self.number == 18;
        let mut cells = self.cells.iter();
        let place = cells.position(|cell| cell.block() == UNMAPPED);
        let place = place.filter(|_| refused);
        let (several, last) = (self.cells.len() > 1, self.cells.len().wrapping_sub(1));
        let by = |record: bool| {
            let cell = place.map(|place| &self.cells[place]);
            cell.is_some_and(|cell| cell.befores.is_empty() != record)
        };
        vec![
            ("18 at the first LBN", several && place == Some(0)),
            ("18 at the last LBN", several && place == Some(last)),
            (
                "18 in between",
                place.is_some_and(|place| 0 < place && place < last),
            ),
            ("18 for one block", !several && place.is_some()),
            ("18 by a record", by(true)),
            ("18 by the map", by(false)),
        ]
    }
}

/// What each LBN of the run goes by, as far as the volume has them.
fn cells(view: &Book<&[u8]>, volume: u8, run: Run, later: &[Slot]) -> Vec<Cell> {
    let all: Vec<Slot> = view.used_slots().collect();
    let records = |slot: &Slot| -> Vec<Record> {
        let records = slot.records();
        records.map(|index| view.record(index)).collect()
    };
    let own: Vec<Record> = later.iter().flat_map(records).collect();
    let since = later.first().map_or(u16::MAX, |next| next.day);
    let others = all.iter();
    let others = others.filter(|slot| slot.volume != volume && slot.day >= since);
    let others: Vec<Record> = others.flat_map(records).collect();
    let end = run.end().min(view.sizes().lbns.into()) as u16;
    let cell = |lbn| {
        let of_lbn = |record: &&Record| record.lbn == lbn;
        Cell {
            befores: own.iter().filter(of_lbn).map(|r| r.before).collect(),
            map: view.cell(volume, lbn),
            of_others: others.iter().any(|record| of_lbn(&record)),
        }
    };
    (run.first.min(end)..end)
        .map(|lbn| cell(Lbn(lbn)))
        .collect()
}

/// Of a restore that is refused before its run is looked at: by a number that comes all the same for
/// no block, and for a run that makes no sense.
pub fn refused_early(restoring: &Restoring, number: u16) -> Vec<Shape> {
    let (run, stored) = (restoring.run, restoring.stored);
    let two = stored.book.get(2..4);
    let blocks = two.map(|two| usize::from(u16::from_le_bytes([two[0], two[1]])));
    let pool = |over: isize| {
        let right = blocks.map(|blocks| 512 * blocks as isize);
        number == 3 && right.is_some_and(|right| stored.pool.len() as isize == right + over)
    };
    let none = |is: u16| number == is && run.length == 0;
    let senseless = |is: u16| number == is && run.end() > 1_024;
    vec![
        ("a pool one byte short", pool(-1)),
        ("a pool one byte long", pool(1)),
        ("volume 8", number == 5 && run.volume == 8),
        ("volume 256", number == 5 && run.volume == 256),
        (
            "a volume that isn't enrolled",
            number == 5 && run.volume < 8,
        ),
        ("5 for no block", none(5)),
        ("15 for no block", none(15)),
        ("16 for no block", none(16)),
        ("5 for a run past any end", senseless(5)),
        ("15 for a run past any end", senseless(15)),
        ("16 for a run past any end", senseless(16)),
    ]
}
