//! Shapes of a read or a restore by the days of the backup that is asked for, and the backups whose days
//! blocks wait for.

use reference::layout::{Book, Header, Slot, UNMAPPED};

use super::Shape;

pub struct Days {
    /// How many days are left until the backup isn't kept.
    own: i32,
    /// How many would be left by the day of the one that replaced it; none for the newest.
    next: Option<i32>,
    /// The one that replaced it was taken on the header's day.
    replaced_today: bool,
    /// The day on which the volume was retired, and whether that is the header's.
    retired: Option<u16>,
    retired_today: bool,
}

impl Days {
    /// None if the volume has no such backup.
    pub fn new(book: &Book<&[u8]>, volume: u8, number: u16) -> Option<Self> {
        let slots = book.backup_slots_of(volume);
        let retired = book.retired_on(volume);
        let index = usize::from(number).checked_sub(1)?;
        let today = book.header(Header::Day);
        let retention = i32::from(book.retention(volume));
        let left = |slot: &Slot| i32::from(slot.day) + retention - i32::from(today);
        let next = slots.get(index + 1);
        Some(Days {
            own: left(slots.get(index)?),
            next: next.map(left),
            replaced_today: next.is_some_and(|next| next.day == today),
            retired,
            retired_today: retired == Some(today),
        })
    }

    pub fn is_newest(&self) -> bool {
        self.next.is_none()
    }
}

pub fn shapes(days: Option<&Days>, number: u16) -> [Shape; 6] {
    let (found, gone) = (number == 0, number == 16);
    let own = |is: fn(i32) -> bool| days.is_some_and(|days| is(days.own));
    let next = |is: fn(i32) -> bool| days.and_then(|days| days.next).is_some_and(is);
    let newest = days.is_some_and(Days::is_newest);
    let replaced_today = days.is_some_and(|days| days.replaced_today);
    [
        (
            "on the last day kept",
            found && !newest && own(|left| left == 0),
        ),
        (
            "the newest, long after",
            found && newest && own(|left| left < 0),
        ),
        ("16 on the day after", gone && own(|left| left == -1)),
        (
            "16, though the next one's day reaches",
            gone && next(|left| left >= 0),
        ),
        (
            "16, and the next one's day doesn't reach",
            gone && next(|left| left < 0),
        ),
        ("16 on the next one's very day", gone && replaced_today),
    ]
}

/// Of a backup of a retired volume.
pub fn retired_shapes(days: Option<&Days>, number: u16) -> [Shape; 6] {
    let days = days.filter(|days| days.retired.is_some());
    let newest = days.filter(|days| days.is_newest());
    let (found, gone) = (number == 0, number == 16);
    let own = |is: fn(i32) -> bool| newest.is_some_and(|days| is(days.own));
    let at_once = newest.is_some_and(|days| days.retired_today);
    [
        (
            "an older one of a retired volume",
            found && newest.is_none() && days.is_some(),
        ),
        ("the newest of a retired volume", found && newest.is_some()),
        (
            "the newest of a retired volume on its last day",
            found && own(|left| left == 0),
        ),
        (
            "16 for the newest of a retired volume on the day after",
            gone && own(|left| left == -1),
        ),
        (
            "16 for the newest of a retired volume long after",
            gone && own(|left| left < -1),
        ),
        (
            "16 for the newest on the day of the retirement",
            gone && at_once,
        ),
    ]
}

/// The used slots that replace a block, each with its volume's slot before it.
pub fn replacing(book: &Book<&[u8]>) -> Vec<(Option<Slot>, Slot)> {
    let slots: Vec<Slot> = book.used_slots().collect();
    let replaces = |slot: &Slot| {
        let mut records = slot.records().map(|index| book.record(index));
        records.any(|record| record.before != UNMAPPED)
    };
    let numbered = slots.iter().enumerate();
    let replacing = numbered.filter(|(_, slot)| replaces(slot));
    let with_previous = replacing.map(|(index, slot)| {
        let mut before = slots[..index].iter().rev();
        (before.find(|s| s.volume == slot.volume).copied(), *slot)
    });
    with_previous.collect()
}
