//! The aid's writer: its list against the reference's, through the reference's reader and through
//! the box.

mod inputs;

use std::ops::Range;

use reference::call::Call;
use reference::change_list::{self, list_bytes};
use reference::layout::Sizes;
use reference::prng::Prng;

use super::tested::Tested;
use super::Job;
use crate::outcome::Outcome;
use crate::request::{Request, WriteList};
use crate::seen::{equal, Seen};

pub fn jobs(seeds: Range<u64>) -> Vec<Job> {
    let job = |seed| Job::new("the aid's writer", move |outcome| write(outcome, seed));
    seeds.map(job).collect()
}

fn write(outcome: &mut Outcome, seed: u64) {
    let mut prng = Prng::seeded(seed);
    let input = WriteList::random(&mut prng);
    let label = || format!("writer {seed}");
    let request = Request::WriteList(&input);
    let Some(seen) = outcome.compare(&mut prng, &label, request) else {
        return;
    };
    if seen.number == 0 {
        let list = &seen.content(3)[..seen.answer(0) as usize];
        outcome.check(&label, reads_back(&input, list));
        // A read of each marked block takes long where there are many.
        if input.lbns < 60 || (input.lbns < 400 && prng.once_in(20)) {
            restore(outcome, &mut prng, &label, &input, list);
        }
    }
}

/// The reader recovers exactly the marked blocks.
fn reads_back(input: &WriteList, list: &[u8]) -> Result<(), String> {
    let read = change_list::read(list, input.lbns);
    let read = read.map_err(|_| "the list is refused by the reader")?;
    let marked = input.marks.iter().filter(|&&mark| mark == 1).count();
    equal("the number of changes", read.number(), marked)?;
    for change in read.changes() {
        let lbn = change.lbn.index();
        let recovered = input.marks[lbn] == 1
            && input.prints[16 * lbn..][..16] == *change.fingerprint
            && input.image[512 * lbn..][..512] == *change.block;
        equal("a change as it was marked", recovered, true)?;
    }
    let runs = usize::from(u16::from_le_bytes([list[0], list[1]]));
    equal("the bytes", list.len(), list_bytes(runs, marked))
}

/// Backs the list up in a fresh box, and reads every marked block.
fn restore(
    outcome: &mut Outcome,
    prng: &mut Prng,
    label: &dyn Fn() -> String,
    input: &WriteList,
    list: &[u8],
) {
    let sizes = Sizes {
        blocks: input.lbns,
        lbns: input.lbns,
        slots: 1,
        records: input.lbns,
    };
    let label = || format!("{}, restored", label());
    let pool = vec![0; sizes.pool_bytes()];
    let Some(mut tested) = Tested::format(outcome, prng, &label, sizes, pool) else {
        return;
    };
    for call in restoring_calls(input, list) {
        let Some(seen) = tested.call(outcome, prng, &label, &call) else {
            return;
        };
        outcome.check(&label, equal("the number of refusal", seen.number, 0));
        if let Call::Read { lbn, .. } = call {
            let restored = block_read(&seen, &tested.0.pool);
            let image = &input.image[512 * usize::from(lbn)..][..512];
            outcome.check(&label, equal("the restored block", restored, Some(image)));
        }
    }
}

/// Enrol, backup and a read of each marked LBN.
fn restoring_calls(input: &WriteList, list: &[u8]) -> Vec<Call> {
    let enrol = Call::Enrol {
        volume: 0,
        retention: 1,
    };
    let backup = Call::Backup {
        volume: 0,
        day: 1,
        list: list.to_vec(),
    };
    let marked = (0..input.lbns).filter(|&lbn| input.marks[usize::from(lbn)] == 1);
    let reads = marked.map(|lbn| Call::Read {
        volume: 0,
        number: 1,
        lbn,
    });
    [enrol, backup].into_iter().chain(reads).collect()
}

/// The block that an accepted read gives.
fn block_read<'a>(seen: &Seen, pool: &'a [u8]) -> Option<&'a [u8]> {
    let at = seen.answers[0].1? as usize;
    pool.get(at..at + 512)
}
