//! Each buffer of each call with lengths around the right one.

use reference::call::{Call, Stored};
use reference::cases;
use reference::layout_2;
use reference::play::encode;
use reference::prng::Prng;
use reference::random_books::narrowed;
use reference::store::{Run, Way};
use reference::view::View;

use super::{converts, play, restores, views, Job};
use crate::outcome::Outcome;
use crate::request::{Request, WriteList};

const PART: &str = "wrong lengths";

/// Lengths beside the right one, and far from it.
fn lengths(right: usize) -> Vec<usize> {
    let near = [right - 1, right, right + 1, right + 512];
    let far = [0, 1, 2, 19, 20, right / 2, 2 * right];
    near.into_iter().chain(far).collect()
}

pub fn jobs() -> Vec<Job> {
    let box_jobs = (0..4).map(|buffer| Job::new(PART, move |o| send_box(o, buffer)));
    let writer_jobs = (0..4).map(|buffer| Job::new(PART, move |o| send_writer(o, buffer)));
    let mut jobs: Vec<Job> = box_jobs.chain(writer_jobs).collect();
    jobs.push(Job::new(PART, send_outputs));
    jobs.push(Job::new(PART, send_converts));
    jobs
}

fn resized(bytes: &[u8], length: usize) -> Vec<u8> {
    let mut bytes = bytes.to_vec();
    bytes.resize(length, 0);
    bytes
}

/// Calls on the box after case d, with book, pool, spare or list resized.
fn send_box(outcome: &mut Outcome, buffer: usize) {
    let mut prng = Prng::seeded(0);
    let box_after_d = cases::after_d();
    let list = cases::list(&[(0, "X"), (2, "A")]);
    let buffers = [
        &box_after_d.book,
        &box_after_d.pool,
        &box_after_d.spare,
        &list,
    ];
    for length in lengths(buffers[buffer].len()) {
        let mut sent = buffers.map(Vec::clone);
        sent[buffer] = resized(buffers[buffer], length);
        let [book, pool, spare, list] = sent;
        let label = || format!("lengths, buffer {buffer} of {length} bytes");
        outcome.compare(&mut prng, &label, Request::Form { book: &book });
        outcome.compare(&mut prng, &label, Request::Count { book: &book });
        for view in View::all(1) {
            let room = view.output_bytes(&box_after_d.book);
            views::send(outcome, &mut prng, &label, (&book, view), room);
        }
        let request = Request::Format {
            book: &book,
            sizes: cases::SIZES,
        };
        outcome.compare(&mut prng, &label, request);
        let stored = &Stored { book, pool, spare };
        let calls = calls(list);
        for call in &calls {
            restores::send_call(outcome, &mut prng, &label, stored, call);
        }
        let list = encode(&calls);
        let room = play::room_for(&list);
        play::send(outcome, &mut prng, &label, (stored, &list), room);
    }
}

/// Each call, as the box after case d accepts it.
fn calls(list: Vec<u8>) -> [Call; 7] {
    [
        Call::Enrol {
            volume: 7,
            retention: 1,
        },
        Call::Backup {
            volume: 1,
            day: 10,
            list,
        },
        Call::Collect { day: 19 },
        Call::Read {
            volume: 0,
            number: 1,
            lbn: 0,
        },
        Call::Restore(TWO_BLOCKS),
        Call::Retire { volume: 0, day: 20 },
        Call::Audit,
    ]
}

const TWO_BLOCKS: Run = Run {
    volume: 0,
    number: 1,
    first: 0,
    length: 2,
};

/// The calls that show the book after case d, and a restore from it, with their outputs resized.
fn send_outputs(outcome: &mut Outcome) {
    let mut prng = Prng::seeded(0);
    let book = &cases::after_d().book[..];
    for view in View::all(1).into_iter().filter(|view| view.has_output()) {
        for length in lengths(view.output_bytes(book)) {
            let label = || format!("lengths, an output of {length} bytes");
            views::send(outcome, &mut prng, &label, (book, view), length);
        }
    }
    let sent = (&cases::after_d(), TWO_BLOCKS);
    for length in lengths(TWO_BLOCKS.bytes()) {
        let label = || format!("lengths, a restore's output of {length} bytes");
        restores::send(outcome, &mut prng, &label, sent, length);
    }
    // An end that is 0 in 16 bits, with room for all of it.
    let longest = Run {
        first: 1,
        length: 65_535,
        ..TWO_BLOCKS
    };
    let label = || "lengths, a restore of 65,535 blocks".to_string();
    let sent = (sent.0, longest);
    restores::send(outcome, &mut prng, &label, sent, longest.bytes());
}

/// The converters on the book after case d, with book and output resized.
fn send_converts(outcome: &mut Outcome) {
    let mut prng = Prng::seeded(0);
    let wide = layout_2::after_d().book;
    let narrow = narrowed(&wide).expect("a book of layout 2");
    for (way, book) in [
        (Way::OneToTwo, &narrow),
        (Way::TwoToOne, &wide),
        (Way::TwoToThree, &wide),
    ] {
        let exact = way.output_bytes(book);
        for room in lengths(exact).into_iter().chain([book.len(), exact - 4]) {
            let label = || format!("lengths, a converter's output of {room} bytes");
            converts::send(outcome, &mut prng, &label, (book, way), room);
        }
        for length in lengths(book.len()).into_iter().chain([2, 10, exact]) {
            let book = &resized(book, length);
            let label = || format!("lengths, a book of {length} bytes to convert");
            converts::send(outcome, &mut prng, &label, (book, way), exact);
        }
    }
}

/// The aid's writer with marks, fingerprints, image or output resized.
fn send_writer(outcome: &mut Outcome, buffer: usize) {
    let mut prng = Prng::seeded(0);
    let marks = vec![1, 0, 1, 1, 0];
    let (prints, image) = (vec![7; 16 * 5], vec![8; 512 * 5]);
    let output = vec![9; reference::change_list::list_bytes(2, 3)];
    let buffers = [&marks, &prints, &image, &output];
    for length in lengths(buffers[buffer].len()) {
        let mut sent = buffers.map(Vec::clone);
        sent[buffer] = resized(buffers[buffer], length);
        let [marks, prints, image, output] = sent;
        let input = WriteList {
            lbns: 5,
            marks,
            prints,
            image,
            output,
        };
        let label = || format!("lengths, the writer's buffer {buffer} of {length} bytes");
        outcome.compare(&mut prng, &label, Request::WriteList(&input));
    }
}
