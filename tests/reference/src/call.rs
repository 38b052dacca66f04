//! A call of the box with its arguments, its answer, and the stores that take calls.

use crate::layout::{Block, Sizes};
use crate::plain::Plain;
use crate::refusal::Refusal;
use crate::store::{self, BackedUp, Run};

#[derive(Clone, Debug)]
pub enum Call {
    Enrol {
        volume: u16,
        retention: u16,
    },
    Backup {
        volume: u16,
        day: u16,
        list: Vec<u8>,
    },
    Collect {
        day: u16,
    },
    Retire {
        volume: u16,
        day: u16,
    },
    Read {
        volume: u16,
        number: u16,
        lbn: u16,
    },
    Restore(Run),
    Audit,
}

#[derive(Clone, Debug, PartialEq, Eq)]
pub enum Answer {
    Refused(Refusal),
    Enrolled,
    BackedUp(BackedUp),
    Freed(u16),
    /// How many cells the volume's map had.
    Retired(u16),
    Block(Box<Block>),
    /// The bytes of a restored run.
    Run(Vec<u8>),
    Sound(bool),
}

/// The answer of an accepted call, or of a refused one.
fn answer<T>(result: Result<T, Refusal>, accepted: impl FnOnce(T) -> Answer) -> Answer {
    result.map_or_else(Answer::Refused, accepted)
}

/// A book with its pool and a spare.
#[derive(Clone)]
pub struct Stored {
    pub book: Vec<u8>,
    pub pool: Vec<u8>,
    pub spare: Vec<u8>,
}

impl Stored {
    /// A fresh book over a pool of any bytes.
    pub fn new(sizes: Sizes, pool: Vec<u8>) -> Result<Self, Refusal> {
        let mut book = vec![0; sizes.book_bytes()];
        store::format(&mut book, sizes)?;
        let spare = book.clone();
        Ok(Stored { book, pool, spare })
    }

    pub fn call(&mut self, call: &Call) -> Answer {
        call_on(&mut self.book, &mut self.pool, &mut self.spare, call)
    }
}

/// A call on a book, its pool and a spare.
pub fn call_on(book: &mut [u8], pool: &mut [u8], spare: &mut [u8], call: &Call) -> Answer {
    match call {
        Call::Enrol { volume, retention } => {
            answer(store::enrol(book, *volume, *retention), |()| {
                Answer::Enrolled
            })
        }
        Call::Backup { volume, day, list } => {
            let result = store::backup(book, pool, spare, *volume, *day, list);
            answer(result, Answer::BackedUp)
        }
        Call::Collect { day } => answer(store::collect(book, *day), Answer::Freed),
        Call::Retire { volume, day } => {
            answer(store::retire(book, spare, *volume, *day), Answer::Retired)
        }
        Call::Read {
            volume,
            number,
            lbn,
        } => answer(store::read(book, pool, *volume, *number, *lbn), |part| {
            Answer::Block(Box::new(part.try_into().expect("a whole block")))
        }),
        Call::Restore(run) => {
            let mut output = vec![0; run.bytes()];
            let result = store::restore(book, pool, *run, &mut output);
            answer(result, |()| Answer::Run(output))
        }
        Call::Audit => answer(store::audit(book), Answer::Sound),
    }
}

impl Plain {
    pub fn call(&mut self, call: &Call) -> Answer {
        match call {
            Call::Enrol { volume, retention } => {
                answer(self.enrol(*volume, *retention), |()| Answer::Enrolled)
            }
            Call::Backup { volume, day, list } => {
                answer(self.backup(*volume, *day, list), Answer::BackedUp)
            }
            Call::Collect { day } => answer(self.collect(*day), Answer::Freed),
            Call::Retire { volume, day } => answer(self.retire(*volume, *day), Answer::Retired),
            Call::Read {
                volume,
                number,
                lbn,
            } => answer(self.read(*volume, *number, *lbn), |block| {
                Answer::Block(Box::new(*block))
            }),
            Call::Restore(run) => answer(self.restore(*run), Answer::Run),
            Call::Audit => Answer::Sound(true),
        }
    }
}
