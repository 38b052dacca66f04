//! Comparing fingerprints: how many bytes agree from the far end up to the first that differs.

use reference::far_end::{agreeing, all_agree};
use reference::layout::{Fingerprint, FINGERPRINT_BYTES};
use reference::prng::Prng;

/// How many pairs are drawn.
const PAIRS: u64 = 20_000;

fn drawn(prng: &mut Prng) -> Fingerprint {
    let mut fingerprint = [0; FINGERPRINT_BYTES];
    prng.fill(&mut fingerprint);
    fingerprint
}

/// What stands before the byte at which the comparison stops.
#[derive(Clone, Copy, Debug)]
enum Before {
    Equal,
    Different,
    Mixed,
}

const BEFORES: [Before; 3] = [Before::Equal, Before::Different, Before::Mixed];

/// A fingerprint that agrees with another in the bytes behind `place` and not there.
fn differing_at(prng: &mut Prng, other: &Fingerprint, place: usize, before: Before) -> Fingerprint {
    let mut fingerprint = *other;
    fingerprint[place] ^= prng.between(1, 255) as u8;
    for byte in &mut fingerprint[..place] {
        let differs = match before {
            Before::Equal => false,
            Before::Different => true,
            Before::Mixed => prng.once_in(2),
        };
        if differs {
            *byte ^= prng.between(1, 255) as u8;
        }
    }
    fingerprint
}

#[test]
fn the_bytes_behind_the_last_difference_are_counted() {
    let mut prng = Prng::seeded(5);
    for place in 0..FINGERPRINT_BYTES {
        for before in BEFORES {
            for _ in 0..100 {
                let one = drawn(&mut prng);
                let other = differing_at(&mut prng, &one, place, before);
                let behind = FINGERPRINT_BYTES - 1 - place;
                assert_eq!(agreeing(&one, &other), behind, "{one:?}, {other:?}");
            }
        }
    }
}

#[test]
fn every_bit_counts() {
    for place in 0..FINGERPRINT_BYTES {
        for bit in 0..8 {
            let mut other = [0x5A; FINGERPRINT_BYTES];
            other[place] ^= 1 << bit;
            let behind = FINGERPRINT_BYTES - 1 - place;
            assert_eq!(agreeing(&[0x5A; FINGERPRINT_BYTES], &other), behind);
        }
    }
}

#[test]
fn a_fingerprint_agrees_with_itself_in_all_bytes() {
    let mut prng = Prng::seeded(0);
    for _ in 0..PAIRS {
        let one = drawn(&mut prng);
        assert_eq!(agreeing(&one, &one.clone()), 16);
    }
    for byte in 0..=255 {
        let one = [byte; FINGERPRINT_BYTES];
        assert_eq!(agreeing(&one, &one.clone()), 16);
    }
}

/// A fingerprint with some of another's bytes changed, or all, or none.
fn changed(prng: &mut Prng, other: &Fingerprint) -> Fingerprint {
    let times = prng.pick(&[1, 2, 8, 64]);
    other.map(|byte| match prng.once_in(times) {
        true => byte ^ prng.between(1, 255) as u8,
        false => byte,
    })
}

/// The sentence of document 02, with 16 exactly when all are equal; and the order of the two is nothing
/// to it.
#[test]
fn it_stops_at_a_difference_and_all_behind_agree() {
    let mut prng = Prng::seeded(1);
    let mut came = [0; FINGERPRINT_BYTES + 1];
    for _ in 0..PAIRS {
        let one = drawn(&mut prng);
        let other = changed(&mut prng, &one);
        let count = agreeing(&one, &other);
        assert_eq!(agreeing(&other, &one), count);
        assert_eq!(count == 16, one == other);
        assert_eq!(all_agree(&one, &other), one == other);
        assert_eq!(one[16 - count..], other[16 - count..]);
        if count < 16 {
            assert_ne!(one[15 - count], other[15 - count]);
        }
        came[count] += 1;
    }
    assert!(came.iter().all(|&times| times > 0), "{came:?}");
}

/// What two fingerprints come to that differ in these places.
fn agreeing_but_for(places: &[usize]) -> usize {
    let one = [7; FINGERPRINT_BYTES];
    let mut other = one;
    places.iter().for_each(|&place| other[place] = 8);
    agreeing(&one, &other)
}

/// From the near end these would be 0, 15 and 8.
#[test]
fn it_counts_from_the_far_end() {
    assert_eq!(agreeing_but_for(&[0]), 15);
    assert_eq!(agreeing_but_for(&[15]), 0);
    assert_eq!(agreeing_but_for(&[8]), 7);
}

/// Counted past a difference these would be 14, 13 and 1.
#[test]
fn it_counts_no_byte_past_a_difference() {
    assert_eq!(agreeing_but_for(&[3, 12]), 3);
    assert_eq!(agreeing_but_for(&[0, 8, 15]), 0);
    assert_eq!(agreeing_but_for(&Vec::from_iter(1..16)), 0);
}
