//! The box on bytes: the calls with their refusals in checking order. A refused call
//! changes nothing but the spare.

mod audit;
mod backup;
mod convert;
mod restore;
mod retire;
mod taking;
mod views;

pub use audit::{expiries, settle_expiries, Days, Fault, FROM_TAKING};
pub use backup::backup;
pub use convert::{convert, Way};
pub use restore::{restore, Run};
pub use retire::retire;
pub use views::{backups, blocks, cells, sizes, used, volume, Used, VolumeFacts, NO_END};

use crate::form;
use crate::keeping::is_kept;
use crate::layout::{
    self, Book, Entry, Header, Lbn, Pbn, Sizes, Slot, DAY_MAX, HELD, RETENTION_RANGE, UNMAPPED,
    VOLUMES,
};
use crate::refusal::{require, Refusal};

/// The answer of an accepted backup.
#[derive(Clone, Copy, Debug, PartialEq, Eq)]
pub struct BackedUp {
    pub number: u16,
    pub taken: u16,
    pub touched: u16,
}

pub fn format(book: &mut [u8], sizes: Sizes) -> Result<(), Refusal> {
    let fits = sizes.in_range() && book.len() == sizes.book_bytes();
    require(fits, Refusal::Layout)?;
    layout::format(book, sizes);
    Ok(())
}

pub fn enrol(book: &mut [u8], volume: u16, retention: u16) -> Result<(), Refusal> {
    let view = form::check(book)?;
    let volume = volume_number(volume)?;
    require(view.retention(volume) == 0, Refusal::Volume)?;
    require(RETENTION_RANGE.contains(&retention), Refusal::Retention)?;
    Book::over(book).set_retention(volume, retention);
    Ok(())
}

/// Frees the held blocks with count 0 and expiry before `day`; answers how many.
pub fn collect(book: &mut [u8], day: u16) -> Result<u16, Refusal> {
    let view = form::check(book)?;
    check_day(&view, day)?;
    let mut book = Book::over(book);
    let mut freed = 0;
    for pbn in book.pbns() {
        let entry = book.entry(pbn);
        if entry.state == HELD && entry.count == 0 && entry.expiry < day {
            book.edit_entry(pbn, Entry::set_free);
            freed += 1;
        }
    }
    book.set_header(Header::Day, day);
    Ok(freed)
}

/// The bytes of an LBN in backup `number` of a volume, as a part of the pool.
pub fn read<'a>(
    book: &[u8],
    pool: &'a [u8],
    volume: u16,
    number: u16,
    lbn: u16,
) -> Result<&'a [u8], Refusal> {
    let pbn = locate(book, pool, volume, number, lbn)?;
    Ok(&pool[pbn.pool_range()])
}

/// The block that `read` answers with.
pub fn locate(
    book: &[u8],
    pool: &[u8],
    volume: u16,
    number: u16,
    lbn: u16,
) -> Result<Pbn, Refusal> {
    let backup = kept_backup(book, pool, volume, number)?;
    require(lbn < backup.book.sizes().lbns, Refusal::LbnAbove)?;
    backup.locate(Lbn(lbn))
}

/// A kept backup of a volume, with the volume's slots after it, its retirement too.
struct KeptBackup<'a> {
    book: Book<&'a [u8]>,
    volume: u8,
    later: Vec<Slot>,
}

/// The backup that is asked for, after all checks of a read before that of the LBN.
fn kept_backup<'a>(
    book: &'a [u8],
    pool: &[u8],
    volume: u16,
    number: u16,
) -> Result<KeptBackup<'a>, Refusal> {
    let book = form::check(book)?;
    require(pool.len() == book.sizes().pool_bytes(), Refusal::Pool)?;
    let volume = enrolled(&book, volume)?;
    let backups = book.backups_of(volume);
    let number = usize::from(number);
    let taken = 1..=backups.days.len();
    require(taken.contains(&number), Refusal::Number)?;
    let kept = is_kept(&backups, number, book.header(Header::Day));
    require(kept, Refusal::NotKept)?;
    let later = book.used_slots_of(volume).split_off(number);
    Ok(KeptBackup {
        book,
        volume,
        later,
    })
}

impl KeptBackup<'_> {
    /// The block that the backup has at an LBN of the volume.
    fn locate(&self, lbn: Lbn) -> Result<Pbn, Refusal> {
        let pbn = named_by(&self.book, self.volume, &self.later, lbn);
        require(pbn != UNMAPPED, Refusal::Unmapped)?;
        Ok(pbn)
    }
}

/// Whether the book is sound.
pub fn audit(book: &[u8]) -> Result<bool, Refusal> {
    let book = form::check(book)?;
    let fault = faults_of(&book).next();
    Ok(fault.is_none())
}

/// All that audit finds wrong.
pub fn faults(book: &[u8]) -> Result<Vec<Fault>, Refusal> {
    let book = form::check(book)?;
    Ok(faults_of(&book).collect())
}

fn faults_of<'a>(book: &'a Book<&[u8]>) -> impl Iterator<Item = Fault> + 'a {
    Fault::all_in(book, FROM_TAKING)
}

fn volume_number(volume: u16) -> Result<u8, Refusal> {
    require(volume < u16::from(VOLUMES), Refusal::Volume)?;
    Ok(volume as u8)
}

fn enrolled(book: &Book<&[u8]>, volume: u16) -> Result<u8, Refusal> {
    let volume = volume_number(volume)?;
    require(book.retention(volume) != 0, Refusal::Volume)?;
    Ok(volume)
}

/// Refusal 5 of the calls that add a slot: the volume is enrolled, and not retired.
fn living(book: &Book<&[u8]>, volume: u16) -> Result<u8, Refusal> {
    let volume = enrolled(book, volume)?;
    require(book.retired_on(volume).is_none(), Refusal::Volume)?;
    Ok(volume)
}

fn check_day(book: &Book<&[u8]>, day: u16) -> Result<(), Refusal> {
    let holds = day <= DAY_MAX && day >= book.header(Header::Day);
    require(holds, Refusal::Day)
}

/// Read's rule: the before of the LBN's first record in the later slots, else the map.
fn named_by(book: &Book<&[u8]>, volume: u8, later: &[Slot], lbn: Lbn) -> Pbn {
    later
        .iter()
        .flat_map(Slot::records)
        .map(|index| book.record(index))
        .find(|record| record.lbn == lbn)
        .map_or(book.cell(volume, lbn), |record| record.before)
}
