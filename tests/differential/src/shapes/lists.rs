//! Shapes of change lists by their pairs.

use reference::change_list::list_bytes;

use super::{Shape, MOST};

/// First LBN and length of a run.
type Pair = (usize, usize);

/// A list's pairs; none where it is too short for as many as it says.
fn pairs(list: &[u8]) -> Option<Vec<Pair>> {
    let number = |two: &[u8]| usize::from(u16::from_le_bytes([two[0], two[1]]));
    let end = 2 + 4 * number(list.get(..2)?);
    let pairs = list.get(2..end)?.chunks(4);
    Some(pairs.map(|p| (number(p), number(&p[2..]))).collect())
}

/// Whether nothing but the length of a run can refuse this list.
fn is_else_good(list: &[u8], pairs: &[Pair], lbns: usize) -> bool {
    let apart = |two: &[Pair]| two[0].0 + two[0].1 <= two[1].0;
    let within = |&(first, length): &Pair| length > 0 && first + length <= lbns;
    let changes = pairs.iter().map(|(_, length)| length).sum();
    pairs.windows(2).all(apart)
        && pairs.iter().all(within)
        && list.len() == list_bytes(pairs.len(), changes)
}

/// Of a list that volumes of so many LBNs were sent, and the number that came.
pub fn shapes(list: &[u8], lbns: u16, number: u16) -> [Shape; 6] {
    let pairs = pairs(list).unwrap_or_default();
    let (taken, refused) = (number == 0, number == 8);
    let whole = |&(_, length): &Pair| length == MOST;
    let touches = |two: &[Pair]| whole(&two[0]) && two[0].0 + MOST == two[1].0;
    let longest = pairs.iter().map(|(_, length)| *length).max().unwrap_or(0);
    let alone = refused && is_else_good(list, &pairs, lbns.into());
    [
        ("a pair of 64", taken && longest == MOST),
        (
            "a pair right after one of 64",
            taken && pairs.windows(2).any(touches),
        ),
        (
            "1,024 changes in 16 pairs",
            taken && pairs.len() == 16 && pairs.iter().all(whole),
        ),
        (
            "refused for a pair of 65 alone",
            alone && longest == MOST + 1,
        ),
        (
            "refused for a pair above 65 alone",
            alone && longest > MOST + 1,
        ),
        (
            "refused for one pair of all LBNs alone",
            alone && pairs == [(0, lbns.into())],
        ),
    ]
}
