//! What each volume held at each accepted backup, worked out from the calls as sent. A retirement ends
//! the exemption of the newest.

use std::rc::Rc;

use crate::call::{Answer, Call};
use crate::change_list;
use crate::keeping::{is_kept, Backups};
use crate::layout::{Block, Lbn, BLOCK_BYTES, VOLUMES};
use crate::refusal::{require, Refusal};
use crate::store::Run;

/// The bytes of each LBN, none where nothing was ever backed up.
type Image = Vec<Option<Rc<Block>>>;

#[derive(Default)]
struct Volume {
    retention: u16,
    /// The day and the whole image of each backup.
    backups: Vec<(u16, Image)>,
    /// The day on which it was retired.
    retired: Option<u16>,
}

pub struct History {
    lbns: u16,
    day: u16,
    volumes: [Option<Volume>; VOLUMES as usize],
}

impl History {
    /// For volumes of `lbns` logical blocks.
    pub fn new(lbns: u16) -> Self {
        History {
            lbns,
            day: 0,
            volumes: Default::default(),
        }
    }

    /// Notes what an accepted call did; a refused one did nothing.
    pub fn note(&mut self, call: &Call, answer: &Answer) {
        if matches!(answer, Answer::Refused(_)) {
            return;
        }
        match call {
            Call::Enrol { volume, retention } => {
                self.volumes[usize::from(*volume)] = Some(Volume {
                    retention: *retention,
                    ..Volume::default()
                });
            }
            Call::Backup { volume, day, list } => self.note_backup(*volume, *day, list),
            Call::Collect { day } => self.day = *day,
            Call::Retire { volume, day } => {
                let volume = self.volumes[usize::from(*volume)].as_mut();
                volume.expect("an enrolled volume").retired = Some(*day);
                self.day = *day;
            }
            Call::Read { .. } | Call::Restore(_) | Call::Audit => {}
        }
    }

    fn note_backup(&mut self, volume: u16, day: u16, list: &[u8]) {
        let list = change_list::read(list, self.lbns).expect("an accepted list");
        let volume = self.volumes[usize::from(volume)].as_mut();
        let backups = &mut volume.expect("an enrolled volume").backups;
        let mut image = match backups.last() {
            Some((_, newest)) => newest.clone(),
            None => vec![None; usize::from(self.lbns)],
        };
        for change in list.changes() {
            image[change.lbn.index()] = Some(Rc::new(*change.block));
        }
        backups.push((day, image));
        self.day = day;
    }

    /// How many backups a volume has.
    pub fn backups(&self, volume: u16) -> usize {
        self.enrolled(volume).map_or(0, |v| v.backups.len())
    }

    /// Whether a volume is retired.
    pub fn is_retired(&self, volume: u16) -> bool {
        self.enrolled(volume).is_some_and(|v| v.retired.is_some())
    }

    /// The answer of a read or of a restore; none of other calls.
    pub fn answer(&self, call: &Call) -> Option<Answer> {
        let answer = match *call {
            Call::Read {
                volume,
                number,
                lbn,
            } => {
                let block = self.read(volume, number, lbn);
                block.map(|block| Answer::Block(Box::new(*block)))
            }
            Call::Restore(run) => self.restore(run, run.bytes()).map(Answer::Run),
            _ => return None,
        };
        Some(answer.unwrap_or_else(Answer::Refused))
    }

    /// The answer of a read.
    pub fn read(&self, volume: u16, number: u16, lbn: u16) -> Result<&Block, Refusal> {
        let image = self.kept_image(volume, number)?;
        let cell = image.get(Lbn(lbn).index()).ok_or(Refusal::LbnAbove)?;
        cell.as_deref().ok_or(Refusal::Unmapped)
    }

    /// What a restore writes to an output of so many bytes.
    pub fn restore(&self, run: Run, room: usize) -> Result<Vec<u8>, Refusal> {
        let image = self.kept_image(run.volume, run.number)?;
        let past_first = image.get(Lbn(run.first).index()..).ok_or(Refusal::Run)?;
        let cells = past_first.get(..run.length.into()).ok_or(Refusal::Run)?;
        require(room / BLOCK_BYTES >= cells.len(), Refusal::Run)?;
        let mut bytes = Vec::new();
        for cell in cells {
            bytes.extend(cell.as_deref().ok_or(Refusal::Unmapped)?);
        }
        Ok(bytes)
    }

    /// What a volume held at a backup that is kept.
    fn kept_image(&self, volume: u16, number: u16) -> Result<&Image, Refusal> {
        let volume = self.enrolled(volume).ok_or(Refusal::Volume)?;
        let number = usize::from(number);
        let (_, image) = number
            .checked_sub(1)
            .and_then(|index| volume.backups.get(index))
            .ok_or(Refusal::Number)?;
        let backups = Backups {
            days: volume.backups.iter().map(|(day, _)| *day).collect(),
            retention: volume.retention,
            retired: volume.retired,
        };
        let kept = is_kept(&backups, number, self.day);
        require(kept, Refusal::NotKept)?;
        Ok(image)
    }

    fn enrolled(&self, volume: u16) -> Option<&Volume> {
        self.volumes.get(usize::from(volume))?.as_ref()
    }
}
