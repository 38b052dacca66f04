//! The plain store: whole maps, mark and sweep, no counts and no expiries.

mod backup;

use std::rc::Rc;

use crate::change_list;
use crate::keeping::{self, Backups, IsKept};
use crate::layout::{
    Block, Fingerprint, Lbn, Pbn, Sizes, DAY_MAX, RETENTION_RANGE, UNMAPPED, VOLUMES,
};
use crate::refusal::{require, Refusal};
use crate::store::{BackedUp, Run};

/// What a held block holds.
#[derive(Debug, PartialEq, Eq)]
pub struct Content {
    pub fingerprint: Fingerprint,
    pub bytes: Block,
}

/// Each block free or held.
type Blocks = Vec<Option<Rc<Content>>>;

type Map = Vec<Pbn>;

fn held_in(blocks: &Blocks) -> impl Iterator<Item = (Pbn, &Content)> {
    let numbered = (0..).map(Pbn).zip(blocks);
    numbered.filter_map(|(pbn, block)| Some((pbn, block.as_deref()?)))
}

enum What {
    /// A backup's whole map.
    Map(Map),
    Retirement,
}

/// A map or a retirement, as it was taken.
struct Taken {
    volume: u16,
    day: u16,
    what: What,
    /// How many changes it had; a retirement has one for each cell that was mapped.
    changes: usize,
}

pub struct Plain {
    sizes: Sizes,
    day: u16,
    cursor: u16,
    blocks: Blocks,
    /// The retention of each enrolled volume.
    retentions: [Option<u16>; VOLUMES as usize],
    /// The maps and retirements of all volumes, in the order taken.
    taken: Vec<Taken>,
    is_kept: IsKept,
}

impl Plain {
    /// The store as an accepted format of these sizes leaves it.
    pub fn new(sizes: Sizes) -> Self {
        Plain {
            sizes,
            day: 0,
            cursor: 0,
            blocks: vec![None; usize::from(sizes.blocks)],
            retentions: Default::default(),
            taken: Vec::new(),
            is_kept: keeping::is_kept,
        }
    }

    /// From now on backups are kept by this rule; a store whose book was converted began by another.
    pub fn keep_by(&mut self, is_kept: IsKept) {
        self.is_kept = is_kept;
    }

    pub fn sizes(&self) -> Sizes {
        self.sizes
    }

    pub fn day(&self) -> u16 {
        self.day
    }

    /// All backups and retirements, and all their changes.
    pub fn used(&self) -> (usize, usize) {
        let changes = self.taken.iter().map(|taken| taken.changes).sum();
        (self.taken.len(), changes)
    }

    /// A volume's retention, the days of its backups, and that of its retirement.
    pub fn volume(&self, volume: u16) -> Result<Backups, Refusal> {
        Ok(Backups {
            retention: self.retention(volume)?,
            days: self.maps(volume).map(|(day, _)| day).collect(),
            retired: self.retired_on(volume),
        })
    }

    /// Whether backup `number`, from 1, is kept at `day`.
    pub fn is_kept(&self, volume: u16, number: usize, day: u16) -> Result<bool, Refusal> {
        Ok((self.is_kept)(&self.volume(volume)?, number, day))
    }

    /// The held blocks in order.
    pub fn held(&self) -> impl Iterator<Item = (Pbn, &Content)> {
        held_in(&self.blocks)
    }

    /// The day and map of each backup of a volume.
    fn maps(&self, volume: u16) -> impl DoubleEndedIterator<Item = (u16, &Map)> {
        let taken = self.taken.iter().filter(move |t| t.volume == volume);
        taken.filter_map(|taken| match &taken.what {
            What::Map(map) => Some((taken.day, map)),
            What::Retirement => None,
        })
    }

    fn retired_on(&self, volume: u16) -> Option<u16> {
        let mut taken = self.taken.iter().filter(|t| t.volume == volume);
        let retirement = taken.find(|taken| matches!(taken.what, What::Retirement));
        retirement.map(|taken| taken.day)
    }

    fn is_retired(&self, volume: u16) -> bool {
        self.retired_on(volume).is_some()
    }

    /// A volume's newest map, all unmapped if there is none or if it was retired since.
    pub fn current_map(&self, volume: u8) -> Map {
        let volume = u16::from(volume);
        let newest = self.maps(volume).next_back();
        match newest.filter(|_| !self.is_retired(volume)) {
            Some((_, map)) => map.clone(),
            None => vec![UNMAPPED; usize::from(self.sizes.lbns)],
        }
    }

    pub fn enrol(&mut self, volume: u16, retention: u16) -> Result<(), Refusal> {
        let place = self.retentions.get_mut(usize::from(volume));
        let place = place.ok_or(Refusal::Volume)?;
        require(place.is_none(), Refusal::Volume)?;
        require(RETENTION_RANGE.contains(&retention), Refusal::Retention)?;
        *place = Some(retention);
        Ok(())
    }

    pub fn backup(&mut self, volume: u16, day: u16, list: &[u8]) -> Result<BackedUp, Refusal> {
        self.check_taking(volume, day)?;
        let list = change_list::read(list, self.sizes.lbns)?;
        self.check_room(list.number())?;
        let made = backup::make(self, volume, &list)?;
        self.take(volume, day, What::Map(made.map), list.number());
        self.blocks = made.blocks;
        self.cursor = made.cursor;
        Ok(BackedUp {
            number: self.maps(volume).count() as u16,
            taken: made.taken,
            touched: list.number() as u16 + made.befores,
        })
    }

    /// The newest map stops being current and stays in the list. Answers how many cells it had.
    pub fn retire(&mut self, volume: u16, day: u16) -> Result<u16, Refusal> {
        self.check_taking(volume, day)?;
        let map = self.current_map(volume as u8);
        let cells = map.iter().filter(|&&cell| cell != UNMAPPED).count();
        self.check_room(cells)?;
        self.take(volume, day, What::Retirement, cells);
        Ok(cells as u16)
    }

    fn take(&mut self, volume: u16, day: u16, what: What, changes: usize) {
        self.taken.push(Taken {
            volume,
            day,
            what,
            changes,
        });
        self.day = day;
    }

    pub fn collect(&mut self, day: u16) -> Result<u16, Refusal> {
        self.check_day(day)?;
        let mut marked = vec![false; self.blocks.len()];
        for map in self.kept_maps(day) {
            for cell in map.iter().filter(|&&cell| cell != UNMAPPED) {
                marked[cell.index()] = true;
            }
        }
        let mut freed = 0;
        for (block, marked) in self.blocks.iter_mut().zip(marked) {
            if block.is_some() && !marked {
                *block = None;
                freed += 1;
            }
        }
        self.day = day;
        Ok(freed)
    }

    /// The maps of the backups kept at `day`. The current maps are among them: each is the newest of a
    /// volume that isn't retired.
    fn kept_maps(&self, day: u16) -> impl Iterator<Item = &Map> {
        let volumes = 0..u16::from(VOLUMES);
        let enrolled = volumes.filter_map(|v| Some((v, self.volume(v).ok()?)));
        enrolled.flat_map(move |(volume, backups)| {
            let kept = move |number: usize| (self.is_kept)(&backups, number, day);
            let maps = (1..).zip(self.maps(volume));
            maps.filter_map(move |(number, (_, map))| kept(number).then_some(map))
        })
    }

    pub fn read(&self, volume: u16, number: u16, lbn: u16) -> Result<&Block, Refusal> {
        let map = self.kept_map(volume, number)?;
        require(lbn < self.sizes.lbns, Refusal::LbnAbove)?;
        self.bytes_of(map[Lbn(lbn).index()])
    }

    /// What the reads one by one give; the output has just the room.
    pub fn restore(&self, run: Run) -> Result<Vec<u8>, Refusal> {
        let map = self.kept_map(run.volume, run.number)?;
        let (first, length) = (usize::from(run.first), usize::from(run.length));
        let cells = map.get(first..first + length).ok_or(Refusal::Run)?;
        let mut bytes = Vec::new();
        for &pbn in cells {
            bytes.extend(self.bytes_of(pbn)?);
        }
        Ok(bytes)
    }

    /// The map of a backup that is kept.
    fn kept_map(&self, volume: u16, number: u16) -> Result<&Map, Refusal> {
        self.retention(volume)?;
        let index = usize::from(number).checked_sub(1);
        let taken = index.and_then(|index| self.maps(volume).nth(index));
        let (_, map) = taken.ok_or(Refusal::Number)?;
        let kept = self.is_kept(volume, usize::from(number), self.day)?;
        require(kept, Refusal::NotKept)?;
        Ok(map)
    }

    fn bytes_of(&self, pbn: Pbn) -> Result<&Block, Refusal> {
        require(pbn != UNMAPPED, Refusal::Unmapped)?;
        let content = self.blocks[pbn.index()].as_ref();
        Ok(&content.expect("a kept backup's block is held").bytes)
    }

    /// That of an enrolled volume.
    fn retention(&self, volume: u16) -> Result<u16, Refusal> {
        let retention = self.retentions.get(usize::from(volume));
        retention.copied().flatten().ok_or(Refusal::Volume)
    }

    fn check_day(&self, day: u16) -> Result<(), Refusal> {
        require(day <= DAY_MAX && day >= self.day, Refusal::Day)
    }

    /// Whether the volume may be backed up or retired on this day.
    fn check_taking(&self, volume: u16, day: u16) -> Result<(), Refusal> {
        self.retention(volume)?;
        require(!self.is_retired(volume), Refusal::Volume)?;
        self.check_day(day)?;
        let last = self.maps(volume).next_back();
        require(last.is_none_or(|(last, _)| day > last), Refusal::Day)
    }

    fn check_room(&self, changes: usize) -> Result<(), Refusal> {
        let (taken, before) = self.used();
        require(taken < usize::from(self.sizes.slots), Refusal::SlotsFull)?;
        let records = before + changes;
        let fits = records <= usize::from(self.sizes.records);
        require(fits, Refusal::JournalFull)
    }
}
