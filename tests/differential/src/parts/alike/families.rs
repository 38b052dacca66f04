//! Seeded runs on a fresh book, in step with the plain store, whose fingerprints are a family: each is like
//! another of it. Every call goes to a damaged copy as well, in which two held blocks have one fingerprint.

use reference::agreement;
use reference::call::{Call, Stored};
use reference::layout::{Book, Fingerprint, Pbn, Sizes, FINGERPRINT_BYTES, HELD};
use reference::plain::Plain;
use reference::prng::Prng;

use super::boxes::{backup, Change};
use super::prints::Likeness;
use super::Label;
use crate::outcome::Outcome;
use crate::parts::runs::answers_agree;
use crate::parts::tested::Tested;
use crate::request::Request;

const FAMILY: usize = 24;
const DAYS: u16 = 40;
const VOLUMES: u16 = 2;
const CHANGES: u16 = 12;

pub fn run(outcome: &mut Outcome, seed: u64) {
    let label = || format!("family {seed}");
    go_on(outcome, &mut Prng::seeded(seed), &label);
}

/// Nothing if the archive wrote where it may not.
fn go_on(outcome: &mut Outcome, prng: &mut Prng, label: Label) -> Option<()> {
    let family = family(prng);
    let sizes = Sizes {
        blocks: prng.between(2, FAMILY as u16 + 4),
        lbns: CHANGES,
        slots: DAYS,
        records: DAYS * CHANGES,
    };
    let pool = vec![0; sizes.pool_bytes()];
    let mut tested = Tested::format(outcome, prng, label, sizes, pool)?;
    let mut plain = Plain::new(sizes);
    let enrol = |volume| Call::Enrol {
        volume,
        retention: 1 + volume,
    };
    let mut calls: Vec<Call> = (0..VOLUMES).map(enrol).collect();
    for day in 1..=DAYS {
        calls.push(backup(day % VOLUMES, day, &changes(prng, &family)));
        calls.extend(prng.once_in(3).then_some(Call::Collect { day }));
        calls.push(Call::Audit);
    }
    for call in &calls {
        send_doubled(outcome, prng, label, &tested.0, call);
        let seen = tested.call(outcome, prng, label, call)?;
        let answer = plain.call(call);
        outcome.check(label, answers_agree(&answer, &seen, &tested.0.pool));
    }
    let Stored { book, pool, .. } = &tested.0;
    outcome.check(label, agreement::check(book, pool, &plain));
    Some(())
}

/// The zero fingerprint and its kin.
fn family(prng: &mut Prng) -> Vec<Fingerprint> {
    let likenesses = Likeness::all();
    let mut family = vec![[0; FINGERPRINT_BYTES]];
    while family.len() < FAMILY {
        let other = prng.pick(&family);
        let drawn = prng.pick(&likenesses).draw(prng, &other);
        if !family.contains(&drawn) {
            family.push(drawn);
        }
    }
    family
}

/// Blocks of the family; now and then one has another's bytes.
fn changes(prng: &mut Prng, family: &[Fingerprint]) -> Vec<Change> {
    let number = prng.between(0, CHANGES);
    let mut members: Vec<usize> = (0..number).map(|_| prng.index(FAMILY)).collect();
    let prints: Vec<Fingerprint> = members.iter().map(|member| family[*member]).collect();
    if number > 0 && prng.once_in(10) {
        members[prng.index(usize::from(number))] = FAMILY;
    }
    let bytes = members.into_iter().map(|member| member as u8);
    prints.into_iter().zip(bytes).collect()
}

/// The call on a copy in which a held block has another's fingerprint.
fn send_doubled(
    outcome: &mut Outcome,
    prng: &mut Prng,
    label: Label,
    stored: &Stored,
    call: &Call,
) {
    let mut stored = stored.clone();
    let mut book = Book::over(&mut stored.book[..]);
    let held = book.pbns().filter(|&pbn| book.entry(pbn).state == HELD);
    let held: Vec<Pbn> = held.collect();
    if held.len() > 1 {
        let other = book.entry(prng.pick(&held)).fingerprint;
        book.edit_entry(prng.pick(&held), |entry| entry.fingerprint = other);
        let label = || format!("{}, two alike", label());
        let stored = &stored;
        outcome.compare(prng, &label, Request::Call { stored, call });
    }
}
