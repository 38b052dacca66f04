//! A change of a file's bytes, and the ways in which it may come out when the power fails before
//! it is synced.

const SECTOR: usize = 512;
/// Writes of more sectors are torn at these only.
const SECTORS_MAX: usize = 8;

#[derive(Clone, Debug)]
pub enum Change {
    Write {
        offset: usize,
        bytes: Vec<u8>,
        /// Whether the file got longer.
        grows: bool,
    },
    /// The file was cut to this length.
    Cut(usize),
}

/// What becomes of a change when the power fails.
#[derive(Clone, Copy, Debug, PartialEq, Eq)]
pub enum Fate {
    /// It may be there, be missing or be torn.
    Loose,
    /// The same, and no later sync helps: one has failed, and the system may have dropped the
    /// bytes since.
    Doubtful,
    /// It is there.
    Firm,
}

/// The ways of a change: the first five, and then single sectors.
const MISSING: usize = 0;
const WHOLE: usize = 1;
const FIRST_HALF: usize = 2;
const LAST_HALF: usize = 3;
/// The new length is there and the bytes aren't.
const LENGTH_ONLY: usize = 4;

impl Change {
    pub fn write(offset: usize, bytes: &[u8], length: usize) -> Self {
        Change::Write {
            offset,
            bytes: bytes.to_vec(),
            grows: offset + bytes.len() > length,
        }
    }

    /// How many ways there are.
    pub fn ways(&self) -> usize {
        match self {
            Change::Cut(_) => 2,
            Change::Write {
                grows: false,
                bytes,
                ..
            } if bytes.len() <= SECTOR => 4,
            Change::Write { bytes, .. } => 5 + sectors(bytes),
        }
    }

    /// Makes the change in one of its ways.
    pub fn apply(&self, to: &mut Vec<u8>, way: usize) {
        if way == MISSING {
            return;
        }
        match self {
            Change::Cut(length) => to.resize(*length, 0),
            Change::Write { offset, bytes, .. } => {
                let part = part_of(bytes.len(), way);
                if way == LENGTH_ONLY {
                    to.resize(to.len().max(offset + bytes.len()), 0);
                    return;
                }
                to.resize(to.len().max(offset + part.end), 0);
                to[offset + part.start..offset + part.end].copy_from_slice(&bytes[part]);
            }
        }
    }

    pub fn make(&self, to: &mut Vec<u8>) {
        self.apply(to, WHOLE);
    }
}

fn sectors(bytes: &[u8]) -> usize {
    match bytes.len().div_ceil(SECTOR) {
        1 => 0,
        many => many.min(SECTORS_MAX),
    }
}

/// Which of the bytes are written.
fn part_of(length: usize, way: usize) -> std::ops::Range<usize> {
    let half = length / 2;
    match way {
        WHOLE => 0..length,
        FIRST_HALF => 0..half,
        LAST_HALF => half..length,
        LENGTH_ONLY => 0..0,
        sector => {
            let start = (sector - LENGTH_ONLY - 1) * SECTOR;
            start..length.min(start + SECTOR)
        }
    }
}
