//! Converters, with outputs of any length: between layouts 1 and 2 there and back, and on to layout 3.

use reference::call::{Call, Stored};
use reference::layout::Book;
use reference::layout_2::{self, renumbered, FROM_REPLACING};
use reference::prng::Prng;
use reference::random_books::{disturb, narrowed};
use reference::store::{settle_expiries, Fault, Way};

use crate::outcome::Outcome;
use crate::request::{Converting, Request};
use crate::seen::{equal, equal_bytes, Seen};

type Label<'a> = &'a dyn Fn() -> String;

/// With an output of so many bytes.
pub fn send(
    outcome: &mut Outcome,
    prng: &mut Prng,
    label: Label,
    (book, way): (&[u8], Way),
    room: usize,
) -> Option<Seen> {
    let mut output = vec![0; room];
    prng.fill(&mut output);
    let converting = &Converting { book, way, output };
    outcome.compare(prng, label, Request::Convert(converting))
}

/// How many bytes the book to write has. What a vector says of its sizes may be far from its length.
fn exact_room(way: Way, book: &[u8]) -> usize {
    way.output_bytes(book).min(book.len() + 9_000)
}

/// Every converter on a book and on the same in layouts 2 and 1: with an output of just the length,
/// with one a byte short, and with a longer one.
pub fn send_all(outcome: &mut Outcome, label: Label, book: &[u8]) {
    let mut prng = Prng::seeded(0);
    let wide = renumbered(book);
    let mut books = vec![book, &wide];
    let narrow = narrowed(&wide);
    books.extend(narrow.as_deref());
    for book in books {
        for way in Way::ALL {
            let exact = exact_room(way, book);
            for room in [exact, exact.saturating_sub(1), exact + 7] {
                send(outcome, &mut prng, label, (book, way), room);
            }
        }
    }
}

/// Each converter on a book of its own layout, with an output of just the length.
pub fn send_exact(outcome: &mut Outcome, label: Label, book: &[u8]) {
    let mut prng = Prng::seeded(0);
    let wide = renumbered(book);
    let narrow = narrowed(&wide);
    for way in Way::ALL {
        let book = match way {
            Way::OneToTwo => narrow.as_deref(),
            Way::TwoToOne | Way::TwoToThree => Some(&wide[..]),
        };
        if let Some(book) = book {
            let exact = exact_room(way, book);
            send(outcome, &mut prng, label, (book, way), exact);
        }
    }
}

/// Every second time converts what calls have made of a book of today's layout, or the same disturbed
/// in an older one.
pub fn send_any(outcome: &mut Outcome, prng: &mut Prng, label: Label, book: &[u8]) {
    if prng.once_in(2) {
        return;
    }
    let label = || format!("{}, converted", label());
    let way = prng.pick(&Way::ALL);
    let mut book = any_older(prng, book, way);
    if prng.once_in(2) {
        disturb(prng, &mut book);
    }
    if prng.once_in(10) {
        let length = book.len();
        let lengths = [prng.index(length), length - 1, length + 1];
        book.resize(prng.pick(&lengths), 7);
    }
    match way.back() {
        Some(back) => send_returning(outcome, prng, &label, (&book, way, back)),
        None => send_afresh(outcome, prng, &label, &book),
    }
    if prng.once_in(10) {
        // A converter that may not take this layout.
        let (way, room) = (prng.pick(&Way::ALL), exact_room(way, &book));
        send(outcome, prng, &label, (&book, way), room);
    }
}

/// The book in the layout that a converter takes, with the expiries that it has or those of layout 2.
fn any_older(prng: &mut Prng, book: &[u8], way: Way) -> Vec<u8> {
    let mut older = renumbered(book);
    if prng.once_in(2) {
        settle_expiries(&mut Book::over(&mut older[..]), FROM_REPLACING);
    }
    match way {
        Way::OneToTwo => narrowed(&older).expect("a book of layout 2"),
        Way::TwoToOne | Way::TwoToThree => older,
    }
}

/// To the other layout and back: the very same bytes come. A book that came to layout 2 goes on to
/// layout 3.
fn send_returning(
    outcome: &mut Outcome,
    prng: &mut Prng,
    label: Label,
    (book, way, back): (&[u8], Way, Way),
) {
    let exact = exact_room(way, book);
    let room = any_room(prng, exact, book.len());
    let Some(seen) = send(outcome, prng, label, (book, way), room) else {
        return;
    };
    if seen.number != 0 {
        return;
    }
    let other = &seen.content(1)[..exact];
    if way == Way::OneToTwo {
        send_afresh(outcome, prng, label, other);
    }
    let label = || format!("{}, back", label());
    let back = send(outcome, prng, &label, (other, back), book.len());
    if let Some(back) = back {
        let accepted = equal("the number", back.number, 0);
        let same = accepted.and_then(|()| equal_bytes("the book", back.content(1), book));
        outcome.check(&label, same);
    }
}

/// From layout 2 to 3 with any room, and audit there.
pub fn send_afresh(outcome: &mut Outcome, prng: &mut Prng, label: Label, book: &[u8]) {
    let room = any_room(prng, exact_room(Way::TwoToThree, book), book.len());
    send_audited(outcome, prng, label, book, room);
}

/// The same with just the room. Gives the book that was written.
pub fn send_exactly(
    outcome: &mut Outcome,
    prng: &mut Prng,
    label: Label,
    book: &[u8],
) -> Option<Vec<u8>> {
    send_audited(outcome, prng, label, book, book.len())
}

fn send_audited(
    outcome: &mut Outcome,
    prng: &mut Prng,
    label: Label,
    book: &[u8],
    room: usize,
) -> Option<Vec<u8>> {
    let seen = send(outcome, prng, label, (book, Way::TwoToThree), room)?;
    if seen.number != 0 {
        return None;
    }
    let new = seen.content(1)[..book.len()].to_vec();
    let said = send_audit(outcome, prng, label, new.clone());
    let faults = layout_2::faults(2, book).unwrap_or_default();
    // A wrong expiry is healed and stands in the way of nothing else; what goes by no day stays.
    let stays = [Fault::Replay, Fault::Count, Fault::Fingerprint];
    let sound = match faults[..] {
        [] | [Fault::Expiry] => Some(1),
        _ if faults.iter().any(|fault| stays.contains(fault)) => Some(0),
        _ => said,
    };
    outcome.check(label, equal("the audit's answer", said, sound));
    Some(new)
}

/// What audit says of a book.
pub fn send_audit(
    outcome: &mut Outcome,
    prng: &mut Prng,
    label: Label,
    book: Vec<u8>,
) -> Option<u32> {
    let stored = &Stored {
        book,
        pool: Vec::new(),
        spare: Vec::new(),
    };
    let call = &Call::Audit;
    let seen = outcome.compare(prng, label, Request::Call { stored, call })?;
    seen.answers[0].1
}

/// Room that is too short, exact or longer; the converter that writes less may have less than the
/// book.
fn any_room(prng: &mut Prng, exact: usize, book: usize) -> usize {
    match prng.below(12) {
        0 => 0,
        1 => exact.saturating_sub(1),
        2 => prng.index(exact + 1),
        3 => book,
        4 => exact + 1,
        5 => exact + prng.index(600),
        _ => exact,
    }
}
