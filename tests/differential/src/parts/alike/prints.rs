//! Fingerprints that agree with another in so many bytes at one end, in any bucket or in the same.

use std::ops::Range;

use reference::layout::{Fingerprint, FINGERPRINT_BYTES};
use reference::prng::Prng;

use crate::bucket::bucket_of;

#[derive(Clone, Copy, Debug)]
pub enum End {
    Near,
    Far,
}

#[derive(Clone, Copy, Debug, PartialEq, Eq)]
pub enum Bucket {
    Any,
    Same,
}

#[derive(Clone, Copy, Debug)]
pub struct Likeness {
    pub end: End,
    /// How many bytes agree at that end up to the first that differs.
    pub bytes: usize,
    pub bucket: Bucket,
}

impl Likeness {
    /// Every number of bytes at each end. Fingerprints that differ in the first or the last byte alone are
    /// never in one bucket.
    pub fn all() -> Vec<Likeness> {
        let mut all = Vec::new();
        for end in [End::Near, End::Far] {
            for (bucket, most) in [(Bucket::Any, 15), (Bucket::Same, 14)] {
                all.extend((0..=most).map(|bytes| Likeness { end, bytes, bucket }));
            }
        }
        all
    }

    pub fn draw(self, prng: &mut Prng, other: &Fingerprint) -> Fingerprint {
        loop {
            let drawn = self.draw_in_any(prng, other);
            if self.bucket == Bucket::Any || bucket_of(&drawn) == bucket_of(other) {
                return drawn;
            }
        }
    }

    /// The bytes past the one that differs are equal, drawn, or some of each.
    fn draw_in_any(self, prng: &mut Prng, other: &Fingerprint) -> Fingerprint {
        let mut noise = [0; FINGERPRINT_BYTES];
        prng.fill(&mut noise);
        let equal = match prng.below(3) {
            0 => 0,
            1 => u64::MAX,
            _ => prng.draw(),
        };
        let (differs, past) = self.places();
        let mut drawn = *other;
        drawn[differs] ^= noise[differs].max(1);
        for place in past.filter(|place| equal >> place & 1 == 0) {
            drawn[place] = noise[place];
        }
        drawn
    }

    /// Where the first byte differs from this end, and those past it.
    fn places(self) -> (usize, Range<usize>) {
        match self.end {
            End::Near => (self.bytes, self.bytes + 1..FINGERPRINT_BYTES),
            End::Far => {
                let differs = FINGERPRINT_BYTES - 1 - self.bytes;
                (differs, 0..differs)
            }
        }
    }
}

#[cfg(test)]
mod tests {
    use super::*;
    use std::iter::zip;

    #[test]
    fn drawn_fingerprints_are_as_alike_as_asked() {
        let mut prng = Prng::seeded(0);
        for likeness in Likeness::all() {
            for _ in 0..20 {
                let mut other = [0; FINGERPRINT_BYTES];
                prng.fill(&mut other);
                let drawn = likeness.draw(&mut prng, &other);
                let agree: Vec<bool> = zip(drawn, other).map(|(a, b)| a == b).collect();
                let differs = match likeness.end {
                    End::Near => agree.iter().position(|agree| !agree),
                    End::Far => agree.iter().rev().position(|agree| !agree),
                };
                assert_eq!(differs, Some(likeness.bytes), "{likeness:?}");
                let same = bucket_of(&drawn) == bucket_of(&other);
                assert!(same || likeness.bucket == Bucket::Any, "{likeness:?}");
            }
        }
    }
}
