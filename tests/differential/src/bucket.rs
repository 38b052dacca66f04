//! The bucket of the archive's index that a fingerprint is in, as `crates/finder/specs/Bucket.antt` has it. No
//! answer goes by it: it is for making fingerprints meet in one bucket, where the archive compares them.

use reference::layout::Fingerprint;

const FACTOR: u32 = 2_654_435_769;
/// 4,096 buckets of the numbers of 32 bits.
const WIDTH: u32 = 1 << 20;

pub fn bucket_of(fingerprint: &Fingerprint) -> u32 {
    let [first, second, .., last_but_one, last] = *fingerprint;
    let ends = u32::from_le_bytes([first, second, last_but_one, last]);
    ends.wrapping_mul(FACTOR) / WIDTH
}

#[cfg(test)]
mod tests {
    use super::{FACTOR, WIDTH};

    /// So the generator of fingerprints of one bucket never asks for such.
    #[test]
    fn a_difference_in_one_byte_of_an_end_leads_to_another_bucket() {
        for shift in [0, 8, 16, 24] {
            for difference in 1..=255 {
                let moved = FACTOR.wrapping_mul(difference << shift);
                let distance = moved.min(moved.wrapping_neg());
                assert!(distance >= WIDTH, "{difference} << {shift}");
            }
        }
    }
}
