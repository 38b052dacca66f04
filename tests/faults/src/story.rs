//! The story that is played: commands of aspenbox one after the other.

use std::collections::BTreeMap;
use std::fmt;

use reference::call::{Answer, Call};
use reference::change_list;
use reference::history::History;
use reference::layout::{Block, Sizes, BLOCK_BYTES, FINGERPRINT_BYTES};
use reference::prng::Prng;

/// Small, so that freed blocks are soon taken again.
pub const SIZES: Sizes = Sizes {
    blocks: 6,
    lbns: 4,
    slots: 16,
    records: 64,
};
pub const STORE: &str = "box";
/// Where volumes are restored to.
pub const OUT: &str = "out";
/// What a retirement needs where nobody can be asked.
pub const YES: &str = "--yes";
/// Zeros at the end of every block of an image. A file is cut off among them, so that its last
/// block is the same as elsewhere and its length is no multiple of a block's.
const ZEROS: usize = 100;

#[derive(Clone, Debug)]
pub enum Command {
    Format,
    Enrol {
        volume: u16,
        keep: u16,
    },
    /// An image is given by letters, one for each block; the day says where its file is cut off.
    Backup {
        volume: u16,
        day: u16,
        image: String,
    },
    Collect {
        day: u16,
    },
    Retire {
        volume: u16,
        day: u16,
    },
    Restore {
        volume: u16,
        number: u16,
    },
}

impl Command {
    /// The command line after the program's name.
    pub fn words(&self) -> Vec<String> {
        let line = match self {
            Command::Format => format!(
                "format {STORE} --blocks {} --cells {} --slots {} --journal {} --day-zero 2026-01-01",
                SIZES.blocks, SIZES.lbns, SIZES.slots, SIZES.records
            ),
            Command::Enrol { volume, keep } => format!("enrol {STORE} {volume} --keep {keep}"),
            Command::Backup { volume, day, .. } => {
                format!("backup {STORE} {volume} {} {}", aid(*volume), on_day(*day))
            }
            Command::Collect { day } => format!("collect {STORE} {}", on_day(*day)),
            Command::Retire { volume, day } => {
                format!("retire {STORE} {volume} {} {YES}", on_day(*day))
            }
            Command::Restore { volume, number } => {
                format!("restore {STORE} {volume} {number} {OUT} --force")
            }
        };
        line.split(' ').map(String::from).collect()
    }

    /// The file that the command takes from outside, with its name.
    pub fn file(&self) -> Option<(String, Vec<u8>)> {
        match self {
            Command::Backup { volume, day, image } => {
                Some((aid(*volume), image_bytes(image, *day)))
            }
            _ => None,
        }
    }

    /// What the box is called with. For what a volume holds it is the same whether all blocks
    /// of an image are sent or those that changed, and what their fingerprints are.
    pub fn call(&self) -> Option<Call> {
        match self {
            Command::Enrol { volume, keep } => Some(Call::Enrol {
                volume: *volume,
                retention: *keep,
            }),
            Command::Backup { volume, day, image } => Some(Call::Backup {
                volume: *volume,
                day: *day,
                list: list_of(image),
            }),
            Command::Collect { day } => Some(Call::Collect { day: *day }),
            Command::Retire { volume, day } => Some(Call::Retire {
                volume: *volume,
                day: *day,
            }),
            Command::Format | Command::Restore { .. } => None,
        }
    }

    pub fn changes_store(&self) -> bool {
        !matches!(self, Command::Restore { .. })
    }
}

impl fmt::Display for Command {
    fn fmt(&self, to: &mut fmt::Formatter) -> fmt::Result {
        match self {
            Command::Format => write!(to, "format"),
            Command::Enrol { volume, .. } => write!(to, "enrol {volume}"),
            Command::Backup { volume, day, image } => {
                write!(to, "backup of {image} to volume {volume} on day {day}")
            }
            Command::Collect { day } => write!(to, "collect on day {day}"),
            Command::Retire { volume, day } => {
                write!(to, "retirement of volume {volume} on day {day}")
            }
            Command::Restore { volume, number } => {
                write!(to, "restore of volume {volume} number {number}")
            }
        }
    }
}

/// The file with the image of a volume.
pub fn aid(volume: u16) -> String {
    format!("aid{volume}")
}

/// Whatever the clock says.
fn on_day(day: u16) -> String {
    format!("--day-number {day} --ahead")
}

/// The bytes of an image's file. The same blocks have another length on another day.
fn image_bytes(image: &str, day: u16) -> Vec<u8> {
    let mut bytes = blocks_of(image);
    let zeros_left = usize::from(day) * 37 % ZEROS;
    bytes.truncate(bytes.len().saturating_sub(ZEROS - zeros_left));
    bytes
}

fn blocks_of(image: &str) -> Vec<u8> {
    image.bytes().flat_map(block_of).collect()
}

/// Blocks of different letters differ in both halves.
fn block_of(letter: u8) -> Block {
    let mut block = [0; BLOCK_BYTES];
    Prng::seeded(letter.into()).fill(&mut block[..BLOCK_BYTES - ZEROS]);
    block
}

fn list_of(image: &str) -> Vec<u8> {
    let lbns = usize::from(SIZES.lbns);
    let mut marks = vec![0; lbns];
    marks[..image.len()].fill(1);
    let mut blocks = blocks_of(image);
    blocks.resize(BLOCK_BYTES * lbns, 0);
    let prints: Vec<u8> = blocks
        .chunks(BLOCK_BYTES)
        .flat_map(|block| block[..FINGERPRINT_BYTES].to_vec())
        .collect();
    let mut list = vec![0; change_list::list_bound(lbns)];
    let length = change_list::write(SIZES.lbns, &marks, &prints, &blocks, &mut list);
    list.truncate(length.expect("an image of the volume's size") as usize);
    list
}

/// What each volume holds after these commands.
pub fn history_of<'a>(commands: impl Iterator<Item = &'a Command>) -> History {
    let mut history = History::new(SIZES.lbns);
    for call in commands.filter_map(Command::call) {
        history.note(&call, &Answer::Enrolled);
    }
    history
}

/// The images that were backed up, by volume and number.
pub type Images = BTreeMap<(u16, u16), Vec<u8>>;

pub fn images_of<'a>(commands: impl Iterator<Item = &'a Command>) -> Images {
    let mut images = Images::new();
    for command in commands {
        if let (Command::Backup { volume, .. }, Some((_, bytes))) = (command, command.file()) {
            let earlier = images.range((*volume, 0)..=(*volume, u16::MAX)).count();
            images.insert((*volume, earlier as u16 + 1), bytes);
        }
    }
    images
}

/// How far a story got: how many of its commands that change the store were taken, and how many
/// of its restores have been written.
#[derive(Clone, Copy, Debug, PartialEq, Eq)]
pub struct Standing {
    pub store: usize,
    pub out: usize,
}

impl fmt::Display for Standing {
    fn fmt(&self, to: &mut fmt::Formatter) -> fmt::Result {
        write!(to, "{} commands taken", self.store)?;
        match self.out {
            0 => Ok(()),
            out => write!(to, " and {out} volumes restored"),
        }
    }
}

impl Standing {
    pub fn reaches(self, other: Standing) -> bool {
        self.store >= other.store && self.out >= other.out
    }
}

/// The letters that a volume has now.
pub fn letters<'a>(commands: impl Iterator<Item = &'a Command>, of: u16) -> String {
    let mut letters = String::new();
    for command in commands {
        match command {
            Command::Backup { volume, image, .. } if *volume == of => {
                let kept = letters.get(image.len()..).unwrap_or("");
                letters = format!("{image}{kept}");
            }
            Command::Retire { volume, .. } if *volume == of => letters.clear(),
            _ => {}
        }
    }
    letters
}

pub struct Story(pub Vec<Command>);

impl Story {
    /// Shared and replaced blocks, blocks that a collection frees and the next backup takes
    /// again, an image that changes in its length alone, a volume that is retired and whose last
    /// backup stays for some days, and volumes brought back.
    pub fn fixed() -> Self {
        let backup = |volume, day, image: &str| Command::Backup {
            volume,
            day,
            image: image.into(),
        };
        Story(vec![
            Command::Format,
            Command::Enrol { volume: 0, keep: 7 },
            Command::Enrol { volume: 1, keep: 4 },
            backup(0, 1, "ABC"),
            backup(1, 2, "BCBD"),
            backup(0, 3, "AEC"),
            backup(1, 4, "EEFD"),
            Command::Collect { day: 9 }, // frees B
            backup(0, 10, "GEC"),        // takes its block
            Command::Restore {
                volume: 0,
                number: 2,
            },
            backup(1, 11, "EEC"),
            Command::Retire { volume: 1, day: 12 },
            Command::Restore {
                volume: 1,
                number: 3,
            },
            Command::Collect { day: 16 }, // frees A, F and, of the retired volume, D
            backup(0, 17, "HIC"),         // takes two of their blocks
            backup(0, 18, "HIC"),
            Command::Restore {
                volume: 0,
                number: 4,
            },
        ])
    }

    /// How far the story is after its first `count` commands.
    pub fn standing(&self, count: usize) -> Standing {
        let store = self.0[..count].iter().filter(|c| c.changes_store()).count();
        Standing {
            store,
            out: count - store,
        }
    }

    /// Whether a command's effect is there. A restore that was lost isn't waited for once the
    /// store has gone on.
    pub fn is_there(&self, standing: Standing, at: usize) -> bool {
        let (before, after) = (self.standing(at), self.standing(at + 1));
        if self.0[at].changes_store() {
            standing.store >= after.store
        } else {
            standing.out >= after.out || standing.store > before.store
        }
    }

    /// The first command whose effect isn't there.
    pub fn next(&self, standing: Standing) -> usize {
        let mut commands = 0..self.0.len();
        commands
            .find(|&at| !self.is_there(standing, at))
            .unwrap_or(self.0.len())
    }

    /// The store's day there.
    pub fn day(&self, store: usize) -> u16 {
        let days = self.taken(store).map(|command| match command {
            Command::Backup { day, .. }
            | Command::Collect { day }
            | Command::Retire { day, .. } => *day,
            _ => 0,
        });
        days.max().unwrap_or(0)
    }

    /// Whether a volume is retired there.
    pub fn is_retired(&self, store: usize, of: u16) -> bool {
        self.taken(store)
            .any(|command| matches!(command, Command::Retire { volume, .. } if *volume == of))
    }

    /// The commands that brought the store there.
    pub fn taken(&self, store: usize) -> impl Iterator<Item = &Command> {
        self.0.iter().filter(|c| c.changes_store()).take(store)
    }
}
