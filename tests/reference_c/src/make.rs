//! Boxes for the fuzz targets: as seeded runs of calls leave them, with the arguments that the run
//! would send next. Each is made once and kept, since a fuzzer asks for it again and again.

use std::cell::RefCell;
use std::collections::HashMap;

use reference::call::{Call, Stored};
use reference::form;
use reference::prng::Prng;
use reference::random_books::disturb;
use reference::random_calls::{RandomCalls, Shape};
use reference::store::Run;

/// Shapes of small books.
const SHAPES: [Shape; 6] = [
    Shape::Small,
    Shape::Sharing,
    Shape::TinyPool,
    Shape::FewSlots,
    Shape::ShortJournal,
    Shape::Pieces,
];
const SEEDS: u16 = 16;
const CALLS: [usize; 3] = [20, 60, 120];

/// Shape, seed and calls of a run, each as an index.
type Key = (usize, u64, usize);

struct Kept {
    stored: Stored,
    list: Vec<u8>,
    /// The numbers of the next enrol, backup, collect, read, restore and retire.
    numbers: [[u16; 4]; 6],
}

/// What `reference_make` made; the pointers are good until it is called again.
#[repr(C)]
pub struct Made {
    book: *const u8,
    book_len: usize,
    pool: *const u8,
    pool_len: usize,
    list: *const u8,
    list_len: usize,
    /// The call's numbers, in the order of its arguments.
    number: [u16; 4],
}

#[derive(Default)]
struct Maker {
    kept: HashMap<Key, Kept>,
    /// The book that was handed out last.
    book: Vec<u8>,
}

thread_local! {
    static MAKER: RefCell<Maker> = RefCell::default();
}

/// Makes the box of a run, and disturbs its book so many times. `call` is one of the letters e, b, c,
/// r, s and t, for enrol, backup, collect, read, restore and retire; others send no numbers.
#[no_mangle]
pub extern "C" fn reference_make(shape: u8, seed: u16, calls: u8, disturbed: u8, call: u8) -> Made {
    let key = (
        usize::from(shape) % SHAPES.len(),
        u64::from(seed % SEEDS),
        usize::from(calls) % CALLS.len(),
    );
    MAKER.with_borrow_mut(|maker| {
        let kept = maker.kept.entry(key).or_insert_with(|| run(key));
        maker.book.clone_from(&kept.stored.book);
        disturb_often(&mut maker.book, seed, disturbed);
        let kind = b"ebcrst".iter().position(|letter| *letter == call);
        Made {
            book: maker.book.as_ptr(),
            book_len: maker.book.len(),
            pool: kept.stored.pool.as_ptr(),
            pool_len: kept.stored.pool.len(),
            list: kept.list.as_ptr(),
            list_len: kept.list.len(),
            number: kind.map_or([0; 4], |kind| kept.numbers[kind]),
        }
    })
}

fn run((shape, seed, calls): Key) -> Kept {
    let mut run = RandomCalls::shaped(SHAPES[shape], seed);
    let mut kept = Kept {
        stored: run.run(CALLS[calls]),
        list: Vec::new(),
        numbers: [[0; 4]; 6],
    };
    let Run {
        volume,
        number,
        first,
        length,
    } = run.restore(&mut Prng::seeded(seed));
    kept.numbers[4] = [volume, number, first, length];
    let mut missing = vec![0, 1, 2, 3, 5];
    while !missing.is_empty() {
        let (kind, numbers) = match run.next_call() {
            Call::Enrol { volume, retention } => (0, [volume, retention, 0, 0]),
            Call::Backup { volume, day, list } => {
                kept.list = list;
                (1, [volume, day, 0, 0])
            }
            Call::Collect { day } => (2, [day, 0, 0, 0]),
            Call::Read {
                volume,
                number,
                lbn,
            } => (3, [volume, number, lbn, 0]),
            Call::Retire { volume, day } => (5, [volume, day, 0, 0]),
            Call::Restore(_) | Call::Audit => continue,
        };
        kept.numbers[kind] = numbers;
        missing.retain(|other| *other != kind);
    }
    kept
}

fn disturb_often(book: &mut [u8], seed: u16, times: u8) {
    let mut prng = Prng::seeded(seed.into());
    for _ in 0..times {
        // A book out of form isn't disturbed field by field any more.
        if form::check(book).is_err() {
            return;
        }
        disturb(&mut prng, book);
    }
}
