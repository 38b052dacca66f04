//! The calls that show a book, with outputs of any length.

use reference::agreement::check_view;
use reference::plain::Plain;
use reference::prng::Prng;
use reference::view::View;

use crate::outcome::Outcome;
use crate::request::{Request, Viewed};
use crate::seen::Seen;

type Label<'a> = &'a dyn Fn() -> String;

/// With an output of so many bytes.
pub fn send(
    outcome: &mut Outcome,
    prng: &mut Prng,
    label: Label,
    (book, view): (&[u8], View),
    room: usize,
) -> Option<Seen> {
    let mut output = vec![0; room];
    prng.fill(&mut output);
    let viewed = &Viewed { book, view, output };
    outcome.compare(prng, label, Request::View(viewed))
}

/// Each call for these volumes, with an output of just the length and with one a byte short.
pub fn send_all(outcome: &mut Outcome, label: Label, book: &[u8], volumes: &[u16]) {
    let mut prng = Prng::seeded(0);
    for view in volumes.iter().flat_map(|&volume| View::all(volume)) {
        let exact = view.output_bytes(book);
        send(outcome, &mut prng, label, (book, view), exact);
        if exact > 0 {
            send(outcome, &mut prng, label, (book, view), exact - 1);
        }
    }
}

/// With an output that is too short, exact or longer.
pub fn send_any(outcome: &mut Outcome, prng: &mut Prng, label: Label, book: &[u8], view: View) {
    let exact = view.output_bytes(book);
    let room = match prng.below(8) {
        0 => 0,
        1 => exact.saturating_sub(1),
        2 => prng.index(exact + 1),
        3 => exact + 1,
        4 => exact + prng.index(600),
        _ => exact,
    };
    send(outcome, prng, label, (book, view), room);
}

/// Each call for these volumes shows what the plain store has.
pub fn send_plain(
    outcome: &mut Outcome,
    prng: &mut Prng,
    label: Label,
    (book, plain): (&[u8], &Plain),
    volumes: &[u16],
) {
    for view in volumes.iter().flat_map(|&volume| View::all(volume)) {
        let room = view.output_bytes(book) + prng.index(3);
        let Some(seen) = send(outcome, prng, label, (book, view), room) else {
            return;
        };
        let values = seen.answers.iter().map(|(_, value)| *value);
        let answers: Vec<u32> = values.flatten().collect();
        let shown = match (seen.number, view.has_output()) {
            (0, true) => Ok((&answers[..], seen.content(1))),
            (0, false) => Ok((&answers[..], &[][..])),
            (number, _) => Err(number),
        };
        outcome.check(label, check_view(plain, view, shown));
    }
}
