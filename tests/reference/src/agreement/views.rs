//! What a host is shown of the box, as far as the plain store knows it: it has no records of a
//! single backup, no counts and no expiries.

use crate::keeping::Backups;
use crate::layout::get_u16;
use crate::plain::Plain;
use crate::refusal::Refusal;
use crate::store::NO_END;
use crate::view::View;

/// Compares what a call answered and the rows that it wrote, or the number that it gave. Its output
/// was long enough.
pub fn check_view(
    plain: &Plain,
    view: View,
    shown: Result<(&[u32], &[u8]), u16>,
) -> Result<(), String> {
    let alike = match shown {
        Ok((answers, rows)) => view_agrees(plain, view, answers, rows),
        Err(number) => Ok(refusal(plain, view).map(Refusal::number) == Some(number)),
    };
    match alike {
        Ok(true) => Ok(()),
        Ok(false) => Err(format!("{view:?} isn't as in the plain store")),
        Err(refusal) => Err(format!("{view:?} has {refusal:?} in the plain store")),
    }
}

fn refusal(plain: &Plain, view: View) -> Option<Refusal> {
    match view {
        View::Volume { volume } | View::Backups { volume } | View::Cells { volume } => {
            plain.volume(volume).err()
        }
        View::Sizes | View::Used | View::Blocks => None,
    }
}

fn view_agrees(plain: &Plain, view: View, answers: &[u32], rows: &[u8]) -> Result<bool, Refusal> {
    Ok(match view {
        View::Sizes => {
            let sizes = plain.sizes();
            let numbers = [sizes.blocks, sizes.lbns, sizes.slots, sizes.records];
            answers == numbers.map(u32::from)
        }
        View::Used => {
            let (backups, changes) = plain.used();
            answers == [backups as u32, changes as u32, plain.day().into()]
        }
        View::Volume { volume } => {
            let facts = plain.volume(volume)?;
            let retired = facts.retired.unwrap_or(NO_END);
            let number = facts.days.len() as u32;
            answers == [facts.retention.into(), number, retired.into()]
        }
        View::Backups { volume } => {
            let facts = plain.volume(volume)?;
            let alike = backups_agree(plain, volume, &facts, rows)?;
            alike && answers == [facts.days.len() as u32]
        }
        View::Cells { volume } => {
            plain.volume(volume)?;
            let map = plain.current_map(volume as u8);
            (0..)
                .zip(map)
                .all(|(lbn, pbn)| get_u16(rows, 2 * lbn) == pbn.0)
        }
        View::Blocks => blocks_agree(plain, rows),
    })
}

/// Each backup has its day, is kept to the last day in its row and no longer, and is said to be
/// kept if it is.
fn backups_agree(
    plain: &Plain,
    volume: u16,
    facts: &Backups,
    rows: &[u8],
) -> Result<bool, Refusal> {
    let days = &facts.days;
    for (number, row) in (1..=days.len()).zip(rows.chunks_exact(8)) {
        let [day, until, kept] = [0, 4, 6].map(|at| get_u16(row, at));
        let is_kept = |day| plain.is_kept(volume, number, day);
        let ends = match until {
            NO_END => number == days.len() && facts.retired.is_none(),
            _ => is_kept(until)? && !is_kept(until + 1)?,
        };
        if day != days[number - 1] || !ends || kept != u16::from(is_kept(plain.day())?) {
            return Ok(false);
        }
    }
    Ok(true)
}

fn blocks_agree(plain: &Plain, rows: &[u8]) -> bool {
    let mut held = plain.held().peekable();
    let blocks = usize::from(plain.sizes().blocks);
    let rows = rows.chunks_exact(22).take(blocks);
    rows.len() == blocks
        && (0..).zip(rows).all(|(pbn, row)| {
            let content = held.next_if(|(plain_pbn, _)| plain_pbn.0 == pbn);
            let fingerprint = content.map_or([0; 16], |(_, content)| content.fingerprint);
            get_u16(row, 0) == u16::from(content.is_some()) && row[6..] == fingerprint
        })
}
