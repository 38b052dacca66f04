//! Shapes of the other calls of the box.

use reference::layout::{Book, Header, Lbn, Pbn, Sizes, Slot, DAY_MAX, HELD, UNMAPPED};
use reference::layout_2::FROM_REPLACING;
use reference::store::expiries;

use super::days::{self, Days};
use super::Shape;
use crate::seen::Seen;

/// The day of each retirement with each block that it unmapped.
fn retirements<'a>(book: &'a Book<&[u8]>) -> impl Iterator<Item = (u16, Pbn)> + 'a {
    let slots = book.used_slots().filter(Slot::is_retirement);
    slots.flat_map(|slot| {
        let records = slot.records().map(|index| book.record(index));
        let unmapped = records.filter(|record| record.before != UNMAPPED);
        unmapped.map(move |record| (slot.day, record.before))
    })
}

pub struct Collect {
    day: u16,
    day_before: u16,
    number: u16,
    freed: usize,
    /// The expiries of held blocks with count 0.
    waiting: Vec<u16>,
    /// A block is freed that the rule of layout 2 would keep.
    sooner: bool,
    /// A block is freed that a retirement unmapped, the last that named it; and one whose retirement
    /// was on the header's day.
    retired: bool,
    retired_today: bool,
}

impl Collect {
    pub fn new(book: &[u8], day: u16, seen: &Seen) -> Self {
        let (view, after) = (Book::over(book), Book::over(seen.content(0)));
        let entries = view.pbns().map(|pbn| view.entry(pbn));
        let waiting = entries.filter(|entry| entry.state == HELD && entry.count == 0);
        let freed = |pbn: Pbn| view.entry(pbn).state == HELD && after.entry(pbn).state != HELD;
        let by_old_rule = view.pbns().zip(expiries(&view, FROM_REPLACING));
        let mut kept_by_it = by_old_rule.filter(|(_, expiry)| *expiry >= day);
        let mut unmapped = retirements(&view).filter(|(_, pbn)| freed(*pbn)).peekable();
        Collect {
            retired: unmapped.peek().is_some(),
            retired_today: unmapped.any(|(day, _)| day == view.header(Header::Day)),
            sooner: kept_by_it.any(|(pbn, _)| freed(pbn)),
            day,
            day_before: view.header(Header::Day),
            number: seen.number,
            freed: seen.answers[0].1.unwrap_or(0) as usize,
            waiting: waiting.map(|entry| entry.expiry).collect(),
        }
    }

    pub fn shapes(&self) -> [Shape; 13] {
        let (accepted, refused) = (self.number == 0, self.number == 7);
        let (day, before, freed) = (self.day, self.day_before, self.freed);
        let waiting = self.waiting.len();
        let expired_on = |day: Option<u16>| day.is_some_and(|day| self.waiting.contains(&day));
        let on_its_day = accepted && expired_on(Some(day));
        let day_after = accepted && expired_on(day.checked_sub(1));
        [
            ("frees one", freed == 1),
            ("frees several", freed > 1),
            ("frees some and leaves some", freed > 0 && freed < waiting),
            (
                "frees none of those that wait",
                accepted && freed == 0 && waiting > 0,
            ),
            ("a block waits on its day of expiry", on_its_day),
            ("a block is freed on the day after", day_after),
            ("frees what layout 2 would keep", self.sooner),
            ("frees what a retirement unmapped", self.retired),
            (
                "frees what a retirement of the book's day unmapped",
                self.retired_today,
            ),
            ("the day stays", accepted && day == before),
            ("the day goes on", accepted && day > before),
            (
                "refused for a day before the book's",
                refused && day < before,
            ),
            ("refused for a day above 60,000", refused && day > DAY_MAX),
        ]
    }
}

pub struct Read {
    /// Whether a later backup or the retirement has a record of the LBN.
    by_record: bool,
    /// Whether the retirement has the first.
    by_retirement: bool,
    /// Whether it is the number that the retirement would have.
    of_retirement: bool,
    days: Option<Days>,
}

impl Read {
    pub fn new(book: &[u8], volume: u16, number: u16, lbn: u16) -> Self {
        let view = Book::over(book);
        let slots = view.used_slots_of(volume as u8);
        let later = slots.get(usize::from(number)..).unwrap_or(&[]);
        let has_record = |slot: &&Slot| {
            let mut records = slot.records();
            records.any(|index| view.record(index).lbn == Lbn(lbn))
        };
        let decides = later.iter().find(has_record);
        let index = usize::from(number).checked_sub(1);
        let asked_for = index.and_then(|index| slots.get(index));
        Read {
            by_record: decides.is_some(),
            by_retirement: decides.is_some_and(Slot::is_retirement),
            of_retirement: asked_for.is_some_and(Slot::is_retirement),
            days: Days::new(&view, volume as u8, number),
        }
    }

    pub fn shapes(&self, refusal: u16) -> [Shape; 5] {
        let (found, by_record) = (refusal == 0, self.by_record);
        let newest = self.days.as_ref().is_some_and(Days::is_newest);
        let older_by_map = found && !newest && !by_record;
        [
            ("the newest backup", found && newest),
            ("an older one, by a record", found && by_record),
            ("an older one, by the map", older_by_map),
            ("unmapped by a record", refusal == 18 && by_record),
            ("unmapped by the map", refusal == 18 && !by_record),
        ]
    }

    pub fn day_shapes(&self, refusal: u16) -> [Shape; 6] {
        days::shapes(self.days.as_ref(), refusal)
    }

    pub fn retired_shapes(&self, refusal: u16) -> impl Iterator<Item = Shape> {
        let shapes = [
            (
                "by a retirement's record",
                refusal == 0 && self.by_retirement,
            ),
            (
                "15 for the place of a retirement",
                refusal == 15 && self.of_retirement,
            ),
        ];
        let of_days = days::retired_shapes(self.days.as_ref(), refusal);
        shapes.into_iter().chain(of_days)
    }
}

pub fn enrol(book: &[u8], volume: u16, days: u16, number: u16) -> [Shape; 9] {
    let accepted = number == 0;
    let there = number == 5 && volume < 8;
    let retired = there && Book::over(book).retired_on(volume as u8).is_some();
    [
        ("1 day", accepted && days == 1),
        ("2 to 99 days", accepted && (2..100).contains(&days)),
        (
            "100 to 4,999 days",
            accepted && (100..5_000).contains(&days),
        ),
        ("5,000 days", accepted && days == 5_000),
        ("0 days", number == 6 && days == 0),
        ("5,001 days", number == 6 && days == 5_001),
        ("volume 8", number == 5 && volume == 8),
        ("a volume that is enrolled", there && !retired),
        ("a volume that is retired", retired),
    ]
}

/// Of an accepted count.
pub fn count(seen: &Seen) -> [Shape; 9] {
    let [blocks, held, waiting, references] = std::array::from_fn(|index| seen.answer(index));
    [
        ("4,096 blocks", blocks == 4_096),
        ("no block held", held == 0),
        ("some held and some free", 0 < held && held < blocks),
        ("all blocks held", held == blocks),
        ("held, and none waits", held > 0 && waiting == 0),
        ("some wait and some don't", 0 < waiting && waiting < held),
        ("all that are held wait", held > 0 && waiting == held),
        ("references above 65,535", references > 65_535),
        ("references of four bytes", references > 0xFF_FFFF),
    ]
}

pub fn format(sizes: Sizes) -> [Shape; 10] {
    let bytes = sizes.book_bytes();
    [
        ("1 block", sizes.blocks == 1),
        ("4,096 blocks", sizes.blocks == 4_096),
        ("1 LBN", sizes.lbns == 1),
        ("1,024 LBNs", sizes.lbns == 1_024),
        ("1 slot", sizes.slots == 1),
        ("1,024 slots", sizes.slots == 1_024),
        ("1 record", sizes.records == 1),
        ("16,384 records", sizes.records == 16_384),
        ("all of them smallest", bytes == 87),
        ("all of them largest", bytes == 208_932),
    ]
}
