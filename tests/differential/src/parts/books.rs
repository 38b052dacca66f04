//! Every call on books that no run leaves: the vectors, and each two edits of a book at once.

use std::sync::LazyLock;

use reference::call::{Call, Stored};
use reference::cases;
use reference::layout::BLOCK_BYTES;
use reference::play::encode;
use reference::prng::Prng;
use reference::store::Run;
use vectors::{edited, Edit, Vector};

use super::{converts, play, restores, views, Job};
use crate::outcome::Outcome;
use crate::request::Request;

/// The jobs of a part; each takes its share of the books, which are made when the first is asked for.
const JOBS: usize = 50;

fn share<T>(all: &[T], job: usize) -> impl Iterator<Item = &T> {
    all.iter().skip(job).step_by(JOBS)
}

/// Each vector.
pub fn vectors() -> Vec<Job> {
    static VECTORS: LazyLock<Vec<Vector>> = LazyLock::new(vectors::all);
    let job = |job| {
        Job::new("vectors", move |outcome| {
            for vector in share(&VECTORS, job) {
                let label = || format!("vector {}", vector.name);
                send_all(outcome, &label, &vector.book);
                views::send_all(outcome, &label, &vector.book, &[0, 1, 7]);
                converts::send_all(outcome, &label, &vector.book);
            }
        })
    };
    (0..JOBS).map(job).collect()
}

/// Each two edits that break form, made at once.
pub fn pairs() -> Vec<Job> {
    static EDITS: LazyLock<Vec<Edit>> = LazyLock::new(|| {
        let mut edits = vectors::edits();
        edits.retain(Edit::breaks_form);
        edits
    });
    let job = |job| {
        Job::new("pairs of broken conditions", move |outcome| {
            for (index, second) in EDITS.iter().enumerate() {
                for first in share(&EDITS[..index], job) {
                    let label = || format!("edits {} and {}", first.name, second.name);
                    let book = edited(&[first, second]);
                    send_all(outcome, &label, &book);
                    views::send_all(outcome, &label, &book, &[0]);
                    converts::send_exact(outcome, &label, &book);
                }
            }
        })
    };
    (0..JOBS).map(job).collect()
}

/// Calls that the book after case d accepts.
fn calls() -> Vec<Call> {
    let mut calls = vec![
        Call::Enrol {
            volume: 2,
            retention: 5,
        },
        cases::backup(0, 60_000, &[]),
        cases::backup(0, 60_000, &[(0, "X")]),
        Call::Collect { day: 60_000 },
        Call::Audit,
    ];
    for number in 1..3 {
        calls.push(Call::Read {
            volume: 0,
            number,
            lbn: 0,
        });
        calls.push(Call::Restore(Run {
            volume: 0,
            number,
            first: 0,
            length: 2,
        }));
    }
    for volume in 0..2 {
        let day = 60_000;
        calls.push(Call::Retire { volume, day });
    }
    calls
}

/// The box of a book, with a pool and a spare of the lengths that it asks for.
fn with_book(book: Vec<u8>) -> Stored {
    let blocks = book
        .get(2..4)
        .map_or(0, |two| u16::from_le_bytes([two[0], two[1]]));
    Stored {
        pool: vec![0; BLOCK_BYTES * usize::from(blocks)],
        spare: book.clone(),
        book,
    }
}

fn send_all(outcome: &mut Outcome, label: &dyn Fn() -> String, book: &[u8]) {
    let mut prng = Prng::seeded(0);
    let stored = &with_book(book.to_vec());
    for call in &calls() {
        restores::send_call(outcome, &mut prng, label, stored, call);
        if let Call::Restore(run) = call {
            let short = run.bytes() - 1;
            restores::send(outcome, &mut prng, label, (stored, *run), short);
        }
    }
    let list = encode(&calls());
    let room = play::room_for(&list);
    play::send(outcome, &mut prng, label, (stored, &list), room);
    outcome.compare(&mut prng, label, Request::Form { book });
    outcome.compare(&mut prng, label, Request::Count { book });
}
