//! Fingerprints that are alike: blocks that are found, and not found, among others whose fingerprints agree
//! with theirs in every number of bytes at each end, in any buckets of the archive's index and in one. And
//! seeded runs of them.

mod boxes;
mod families;
mod prints;

use std::ops::Range;

use reference::layout::{Fingerprint, FINGERPRINT_BYTES};
use reference::prng::Prng;

use self::boxes::Scene;
use self::prints::Likeness;
use super::Job;
use crate::outcome::Outcome;

const PART: &str = "fingerprints alike";

type Label<'a> = &'a dyn Fn() -> String;

pub fn jobs() -> Vec<Job> {
    let likenesses = Likeness::all().into_iter();
    let scenes = likenesses.map(|likeness| {
        Job::new(PART, move |outcome| {
            let mut prng = Prng::seeded(likeness.bytes as u64);
            let mut drawn = [0; FINGERPRINT_BYTES];
            prng.fill(&mut drawn);
            // Free blocks have the zero fingerprint.
            for wanted in [[0; FINGERPRINT_BYTES], drawn] {
                let kin = Kin::draw(&mut prng, likeness, wanted);
                kin.send_all(outcome, &mut prng);
            }
        })
    });
    scenes.chain(runs(0..24)).collect()
}

pub fn runs(seeds: Range<u64>) -> Vec<Job> {
    let job = |seed| Job::new(PART, move |outcome| families::run(outcome, seed));
    seeds.map(job).collect()
}

/// How many fingerprints stand around the one that is looked for.
const OTHERS: usize = 5;

/// A fingerprint that is looked for, and others like it.
struct Kin {
    likeness: Likeness,
    wanted: Fingerprint,
    others: Vec<Fingerprint>,
}

impl Kin {
    fn draw(prng: &mut Prng, likeness: Likeness, wanted: Fingerprint) -> Self {
        let mut others = Vec::new();
        while others.len() < OTHERS {
            let other = likeness.draw(prng, &wanted);
            if !others.contains(&other) {
                others.push(other);
            }
        }
        Kin {
            likeness,
            wanted,
            others,
        }
    }

    fn send_all(&self, outcome: &mut Outcome, prng: &mut Prng) {
        let label = || format!("{:?}, {:x?}", self.likeness, self.wanted);
        self.send_found(outcome, prng, &label);
        self.send_missed(outcome, prng, &label);
        self.send_taken(outcome, prng, &label);
        self.send_twice(outcome, prng, &label);
    }

    /// The others with the wanted one at these places among them, and free blocks between.
    fn arranged(&self, places: &[usize]) -> Vec<Option<Fingerprint>> {
        let mut blocks = Vec::new();
        for place in 0..=OTHERS {
            if place % 2 == 0 {
                blocks.push(None);
            }
            if places.contains(&place) {
                blocks.push(Some(self.wanted));
            }
            blocks.extend(self.others.get(place).map(|other| Some(*other)));
        }
        blocks
    }

    /// The wanted one is held once, below and above others.
    fn send_found(&self, outcome: &mut Outcome, prng: &mut Prng, label: Label) {
        for place in 0..=OTHERS {
            let scene = Scene::new(prng, self.arranged(&[place]));
            let [pbn] = scene.holding(&self.wanted)[..] else {
                unreachable!("it is held once")
            };
            let mut held = scene.held();
            held.reverse();
            let each = held.iter().map(|pbn| scene.own(*pbn)).collect::<Vec<_>>();
            scene.send(outcome, prng, label, &[scene.own(pbn)], Ok(vec![pbn]));
            scene.send(outcome, prng, label, &each, Ok(held));
            scene.send(outcome, prng, label, &[(self.wanted, 0)], Err(11));
            scene.send_audit(outcome, prng, label, true);
        }
    }

    /// It isn't held: the first that is sent is taken, and those after it are found.
    fn send_missed(&self, outcome: &mut Outcome, prng: &mut Prng, label: Label) {
        let scene = Scene::new(prng, self.arranged(&[]));
        let (free, held) = (scene.next_free(), scene.held()[0]);
        let sent = (self.wanted, 7);
        let changes = [sent, scene.own(held), sent];
        scene.send(outcome, prng, label, &changes, Ok(vec![free, held, free]));
        let other_bytes = [sent, (self.wanted, 8)];
        scene.send(outcome, prng, label, &other_bytes, Err(11));
        scene.send_audit(outcome, prng, label, true);
    }

    /// All are taken by one list, in either order and from any cursor, and found by it again.
    fn send_taken(&self, outcome: &mut Outcome, prng: &mut Prng, label: Label) {
        let prints = self.others.iter().chain([&self.wanted]);
        let mut changes: Vec<_> = prints.copied().zip(1..).collect();
        for _ in 0..2 {
            changes.reverse();
            for cursor in 0..=OTHERS as u16 {
                let mut scene = Scene::new(prng, vec![None; OTHERS + 1]);
                scene.set_cursor(cursor);
                let taken = (0..=OTHERS as u16).map(|step| (cursor + step) % (OTHERS as u16 + 1));
                let (twice, blocks) = (changes.repeat(2), taken.collect::<Vec<_>>().repeat(2));
                scene.send(outcome, prng, label, &twice, Ok(blocks));
            }
        }
    }

    /// In a damaged book two blocks have it: the lower is found.
    fn send_twice(&self, outcome: &mut Outcome, prng: &mut Prng, label: Label) {
        for upper in 0..=OTHERS {
            for lower in 0..upper {
                let scene = Scene::new(prng, self.arranged(&[lower, upper]));
                let [one, other] = scene.holding(&self.wanted)[..] else {
                    unreachable!("it is held twice")
                };
                scene.send(outcome, prng, label, &[scene.own(one)], Ok(vec![one]));
                scene.send(outcome, prng, label, &[scene.own(other)], Err(11));
                scene.send_audit(outcome, prng, label, false);
            }
        }
    }
}
