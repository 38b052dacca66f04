//! Fingerprints compared from the far end.

use crate::layout::{Fingerprint, FINGERPRINT_BYTES};

/// How many bytes agree from the far end up to the first that differs.
pub fn agreeing(one: &Fingerprint, other: &Fingerprint) -> usize {
    let from_the_far_end = one.iter().zip(other).rev();
    from_the_far_end.take_while(|(a, b)| a == b).count()
}

pub fn all_agree(one: &Fingerprint, other: &Fingerprint) -> bool {
    agreeing(one, other) == FINGERPRINT_BYTES
}
