//! Runs of blocks in one call, with outputs of any length.

use reference::call::{Call, Stored};
use reference::history::History;
use reference::prng::Prng;
use reference::store::Run;

use crate::outcome::Outcome;
use crate::request::{Request, Restoring};
use crate::seen::{equal, Seen};

type Label<'a> = &'a dyn Fn() -> String;

/// The most blocks that an output has room for. A longer run is refused, whatever its room.
const MOST: usize = 1_040;

/// With an output of so many bytes.
pub fn send(
    outcome: &mut Outcome,
    prng: &mut Prng,
    label: Label,
    (stored, run): (&Stored, Run),
    room: usize,
) -> Option<Seen> {
    let mut output = vec![0; room];
    prng.fill(&mut output);
    let restoring = &Restoring {
        stored,
        run,
        output,
    };
    outcome.compare(prng, label, Request::Restore(restoring))
}

/// Any call; a restore with an output of just its length.
pub fn send_call(
    outcome: &mut Outcome,
    prng: &mut Prng,
    label: Label,
    stored: &Stored,
    call: &Call,
) -> Option<Seen> {
    match call {
        Call::Restore(run) => send(outcome, prng, label, (stored, *run), run.bytes()),
        _ => outcome.compare(prng, label, Request::Call { stored, call }),
    }
}

/// Room that is too short, exact or longer.
fn any_room(prng: &mut Prng, run: Run) -> usize {
    let exact = run.bytes().min(512 * MOST);
    match prng.below(12) {
        0 => 0,
        1 => exact.saturating_sub(1),
        2 => prng.index(exact + 1),
        // Bytes instead of blocks, and what is left of the bytes in 16 bits.
        3 => run.length.into(),
        4 => exact % 65_536,
        5 => exact + 1,
        6 => exact + prng.index(1_500),
        _ => exact,
    }
}

pub fn send_any(
    outcome: &mut Outcome,
    prng: &mut Prng,
    label: Label,
    (stored, run): (&Stored, Run),
) {
    let room = any_room(prng, run);
    send(outcome, prng, label, (stored, run), room);
}

/// On a book that calls have made, a run is what the volume sent.
pub fn send_past(
    outcome: &mut Outcome,
    prng: &mut Prng,
    label: Label,
    (stored, run): (&Stored, Run),
    history: &History,
) {
    let room = any_room(prng, run);
    let Some(seen) = send(outcome, prng, label, (stored, run), room) else {
        return;
    };
    let label = || format!("{}, history", label());
    let sent = match history.restore(run, room) {
        Ok(blocks) => equal("the number", seen.number, 0).and_then(|()| {
            let restored = &seen.content(2)[..blocks.len()];
            equal("what was restored", restored, &blocks[..])
        }),
        Err(refusal) => equal("the number", seen.number, refusal.number()),
    };
    outcome.check(&label, sent);
}
