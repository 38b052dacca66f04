//! How long a backup is kept, and with it the blocks that it names: so many days from the day it was
//! taken, and the newest without end while its volume isn't retired.

/// What the rule looks at in a volume.
#[derive(Clone, Debug, PartialEq, Eq)]
pub struct Backups {
    /// The day of each backup.
    pub days: Vec<u16>,
    pub retention: u16,
    /// The day on which the volume was retired.
    pub retired: Option<u16>,
}

/// Whether backup `number`, from 1, of a volume is kept on a day.
pub type IsKept = fn(backups: &Backups, number: usize, day: u16) -> bool;

/// The last day on which a backup taken on this day is kept, once it isn't exempt.
pub fn last_day(taken: u16, retention: u16) -> u16 {
    taken + retention
}

/// The last day on which a backup is kept; none for the newest of a volume that isn't retired.
pub fn kept_until(backups: &Backups, number: usize) -> Option<u16> {
    let newest = number == backups.days.len();
    let exempt = newest && backups.retired.is_none();
    (!exempt).then(|| last_day(backups.days[number - 1], backups.retention))
}

/// The rule of today's layout.
pub fn is_kept(backups: &Backups, number: usize, day: u16) -> bool {
    kept_until(backups, number).is_none_or(|last| last >= day)
}
