//! The rule of days that layouts 1 and 2 had: a backup was kept so many days from the day of the one
//! that replaced it. The box doesn't go by it any more; it makes and judges the books that are there
//! to be converted.

use crate::call::{Answer, Call, Stored};
use crate::cases::{calls_to_d, SIZES};
use crate::form;
use crate::keeping::{self, Backups};
use crate::layout::{Book, Header, Sizes, LAYOUT};
use crate::random_calls::RandomCalls;
use crate::refusal::Refusal;
use crate::store::{settle_expiries, Days, Fault, FROM_TAKING};

/// A before waited from the day of its record's slot.
pub const FROM_REPLACING: Days = Days {
    waits_from: |_, slot| slot.day,
    is_kept,
};

/// Whether backup `number`, from 1, of a volume was kept on a day. There were no retirements.
pub fn is_kept(backups: &Backups, number: usize, day: u16) -> bool {
    let replaced = backups.days.get(number);
    replaced.is_none_or(|&replaced| keeping::last_day(replaced, backups.retention) >= day)
}

/// The rule of days of a layout.
pub fn days_of(layout: u16) -> Days {
    match layout {
        1 | 2 => FROM_REPLACING,
        _ => FROM_TAKING,
    }
}

/// All that audit found wrong with a book of layout 1 or 2.
pub fn faults(layout: u16, book: &[u8]) -> Result<Vec<Fault>, Refusal> {
    let book = form::check_in(layout, book)?;
    Ok(Fault::all_in(&book, FROM_REPLACING).collect())
}

/// A book of today's layout under the number of layout 2, with the expiries that it has. Another
/// number stays.
pub fn renumbered(book: &[u8]) -> Vec<u8> {
    let mut book = book.to_vec();
    if book.starts_with(&LAYOUT.to_le_bytes()) {
        book[0] = 2;
    }
    book
}

/// The box after case d of document 01.
pub fn after_d() -> Stored {
    let mut old = OldBox::new(SIZES, vec![0; SIZES.pool_bytes()]);
    for call in calls_to_d() {
        old.call(&call);
    }
    old.stored()
}

/// A box as the program of layout 2 kept it.
pub struct OldBox(Stored);

impl OldBox {
    /// A fresh book over a pool of any bytes.
    pub fn new(sizes: Sizes, pool: Vec<u8>) -> Self {
        OldBox(Stored::new(sizes, pool).expect("sizes in range"))
    }

    /// What so many calls leave.
    pub fn run(calls: &mut RandomCalls, number: usize) -> Self {
        let pool = calls.first_pool();
        let mut old = OldBox::new(calls.sizes(), pool);
        for _ in 0..number {
            let call = calls.next_call();
            if let Some(answer) = old.call(&call) {
                calls.learn(&call, &answer);
            }
        }
        old
    }

    /// An enrol, a backup or a collect; none of the other calls, which change nothing. Of what these
    /// three do, only the expiries that a backup leaves go by the rule of days.
    pub fn call(&mut self, call: &Call) -> Option<Answer> {
        if !matches!(
            call,
            Call::Enrol { .. } | Call::Backup { .. } | Call::Collect { .. }
        ) {
            return None;
        }
        let answer = self.0.call(call);
        if let Answer::BackedUp(_) = answer {
            settle_expiries(&mut Book::over(&mut self.0.book[..]), FROM_REPLACING);
        }
        Some(answer)
    }

    /// Its book and pool, with a spare as long as the book.
    pub fn stored(&self) -> Stored {
        let mut stored = self.0.clone();
        Book::over(&mut stored.book[..]).set_header(Header::Layout, 2);
        stored
    }
}
