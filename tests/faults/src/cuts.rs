//! Which ways of a power cut are tried: all of them up to a bound, else a choice.

use reference::prng::Prng;

/// Lists of ways, one way below its number for each of `choices`.
pub fn cuts(choices: &[usize], bound: usize, prng: &mut Prng) -> Vec<Vec<usize>> {
    match product(choices) {
        Some(number) if number <= bound => every(choices, number),
        _ => some(choices, bound, prng),
    }
}

/// Whether `cuts` gives all of them.
pub fn are_all(choices: &[usize], bound: usize) -> bool {
    product(choices).is_some_and(|number| number <= bound)
}

fn product(choices: &[usize]) -> Option<usize> {
    let mut ways = choices.iter();
    ways.try_fold(1_usize, |product, &ways| product.checked_mul(ways))
}

fn every(choices: &[usize], number: usize) -> Vec<Vec<usize>> {
    let nth = |index: usize| {
        let mut rest = index;
        let digit = |&ways: &usize| {
            let way = rest % ways;
            rest /= ways;
            way
        };
        choices.iter().map(digit).collect()
    };
    (0..number).map(nth).collect()
}

/// Nothing there, everything there, both with each single thing in each of its ways, and beyond
/// that what chance gives.
fn some(choices: &[usize], bound: usize, prng: &mut Prng) -> Vec<Vec<usize>> {
    let mut chosen = Vec::new();
    for base in [0, 1] {
        chosen.push(vec![base; choices.len()]);
        for (at, &ways) in choices.iter().enumerate() {
            for way in (0..ways).filter(|&way| way != base) {
                let mut one = vec![base; choices.len()];
                one[at] = way;
                chosen.push(one);
            }
        }
    }
    while chosen.len() < bound {
        chosen.push(choices.iter().map(|&ways| prng.index(ways)).collect());
    }
    chosen
}

#[cfg(test)]
mod tests {
    use super::cuts;
    use reference::prng::Prng;
    use std::collections::BTreeSet;

    #[test]
    fn all_ways_up_to_the_bound() {
        let found = cuts(&[2, 3], 6, &mut Prng::seeded(1));
        let distinct: BTreeSet<_> = found.into_iter().collect();
        assert_eq!(distinct.len(), 6);
        assert!(distinct.contains(&vec![1, 2]));
    }

    #[test]
    fn a_choice_beyond_it() {
        let choices = [2; 20];
        let found = cuts(&choices, 100, &mut Prng::seeded(1));
        assert_eq!(found.len(), 100);
        assert!(found.contains(&vec![0; 20]) && found.contains(&vec![1; 20]));
        assert_eq!(cuts(&[], 1, &mut Prng::seeded(1)), vec![Vec::new()]);
    }
}
