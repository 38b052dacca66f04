//! The box, the plain store and the history, fed the same calls one by one.

use crate::agreement;
use crate::call::{Answer, Call, Stored};
use crate::cases::backup;
use crate::history::History;
use crate::layout::{Book, Pbn, Sizes};
use crate::plain::Plain;
use crate::refusal::Refusal;
use crate::store;

pub struct Clinic {
    pub stored: Stored,
    pub plain: Plain,
    history: History,
}

impl Clinic {
    /// With a fresh book.
    pub fn of(sizes: Sizes) -> Self {
        let pool = vec![0; sizes.pool_bytes()];
        Clinic {
            stored: Stored::new(sizes, pool).expect("sizes in range"),
            plain: Plain::new(sizes),
            history: History::new(sizes.lbns),
        }
    }

    /// All three have to answer alike, and the box has to be sound afterwards.
    pub fn call(&mut self, call: Call) -> Answer {
        let answer = self.stored.call(&call);
        assert_eq!(self.plain.call(&call), answer, "{call:?}");
        if let Some(past) = self.history.answer(&call) {
            assert_eq!(past, answer, "{call:?}");
        }
        self.history.note(&call, &answer);
        let Stored { book, pool, .. } = &self.stored;
        assert_eq!(agreement::check(book, pool, &self.plain), Ok(()));
        assert_eq!(store::audit(book), Ok(true));
        answer
    }

    pub fn enrols(&mut self, volume: u16, retention: u16) {
        let answer = self.call(Call::Enrol { volume, retention });
        assert_eq!(answer, Answer::Enrolled);
    }

    pub fn backs_up(&mut self, volume: u16, day: u16, runs: &[(u16, &str)]) {
        let answer = self.call(backup(volume, day, runs));
        assert!(matches!(answer, Answer::BackedUp(_)), "{answer:?}");
    }

    /// The letter of an LBN in a backup.
    pub fn reads(&mut self, volume: u16, number: u16, lbn: u16) -> Result<char, Refusal> {
        match self.call(Call::Read {
            volume,
            number,
            lbn,
        }) {
            Answer::Block(block) => Ok(char::from(block[0])),
            Answer::Refused(refusal) => Err(refusal),
            answer => panic!("{answer:?}"),
        }
    }

    pub fn expiry(&self, pbn: u16) -> u16 {
        Book::over(&self.stored.book[..]).entry(Pbn(pbn)).expiry
    }
}
