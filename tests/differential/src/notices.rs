//! The comparison notices what a wrong archive could do to memory that isn't its own.

use std::slice::from_raw_parts_mut;

use reference::call::{Call, Stored};
use reference::cases;
use reference::layout_2;
use reference::play::encode;
use reference::prng::Prng;
use reference::store::{Run, Way};
use reference::view::View;

use crate::coverage::Coverage;
use crate::interface::{Interface, REFERENCE};
use crate::request::{Converting, Playing, Request, Restoring, Viewed};
use crate::seen;

const REFUSED: Call = Call::Collect { day: 0 };
const ACCEPTED: Call = Call::Collect { day: 9 };

/// What the comparison says of a call on the box after case d.
fn compared(archive: &Interface, call: &Call) -> Result<(), String> {
    let stored = &cases::after_d();
    sent(archive, Request::Call { stored, call })
}

/// And of the map of its volume 0 in an output of so many bytes.
fn compared_cells(archive: &Interface, room: usize) -> Result<(), String> {
    let viewed = &Viewed {
        book: &cases::after_d().book,
        view: View::Cells { volume: 0 },
        output: vec![7; room],
    };
    sent(archive, Request::View(viewed))
}

/// And of the first two blocks of its volume 0's first backup in an output of so many bytes.
fn compared_run(archive: &Interface, room: usize) -> Result<(), String> {
    let restoring = &Restoring {
        stored: &cases::after_d(),
        run: Run {
            volume: 0,
            number: 1,
            first: 0,
            length: 2,
        },
        output: vec![7; room],
    };
    sent(archive, Request::Restore(restoring))
}

/// And of its book in layout 2, converted into an output of so many bytes.
fn compared_book(archive: &Interface, way: Way, room: usize) -> Result<(), String> {
    let converting = &Converting {
        book: &layout_2::after_d().book,
        way,
        output: vec![7; room],
    };
    sent(archive, Request::Convert(converting))
}

/// And of a list of an audit and a collection, with room for so many bytes of answers.
fn compared_list(archive: &Interface, room: usize) -> Result<(), String> {
    let playing = &Playing {
        stored: &cases::after_d(),
        calls: &encode(&[Call::Audit, ACCEPTED]),
        answers: vec![7; room],
    };
    sent(archive, Request::Play(playing))
}

fn sent(archive: &Interface, request: Request) -> Result<(), String> {
    let mut prng = Prng::seeded(0);
    let ours = request.send(&mut prng, archive)?;
    let expected = request.send(&mut prng, &REFERENCE)?;
    seen::compare(&request.buffers(), &ours, &expected)
}

/// The reference's collect, and then a byte beside the book.
unsafe extern "C" fn writes_past(book: *mut u8, length: usize, day: u16, freed: *mut u16) -> u16 {
    let number = (REFERENCE.collect)(book, length, day, freed);
    *book.add(length) ^= 1;
    number
}

unsafe extern "C" fn writes_before(book: *mut u8, length: usize, day: u16, freed: *mut u16) -> u16 {
    let number = (REFERENCE.collect)(book, length, day, freed);
    *book.sub(1) ^= 1;
    number
}

unsafe extern "C" fn writes_beside(book: *mut u8, length: usize, day: u16, freed: *mut u16) -> u16 {
    let number = (REFERENCE.collect)(book, length, day, freed);
    *freed.add(1) = 0;
    number
}

unsafe extern "C" fn always_answers(
    book: *mut u8,
    length: usize,
    day: u16,
    freed: *mut u16,
) -> u16 {
    *freed = 0;
    (REFERENCE.collect)(book, length, day, freed)
}

unsafe extern "C" fn spoils_the_book(
    book: *mut u8,
    length: usize,
    day: u16,
    freed: *mut u16,
) -> u16 {
    let number = (REFERENCE.collect)(book, length, day, freed);
    from_raw_parts_mut(book, length)[length - 1] ^= 1;
    number
}

#[test]
fn the_reference_agrees_with_itself() {
    for call in [ACCEPTED, REFUSED] {
        assert_eq!(compared(&REFERENCE, &call), Ok(()));
    }
}

#[test]
fn what_is_written_elsewhere_is_noticed() {
    for collect in [writes_past, writes_before, writes_beside, spoils_the_book] {
        let archive = Interface {
            collect,
            ..REFERENCE
        };
        for call in [ACCEPTED, REFUSED] {
            assert!(compared(&archive, &call).is_err());
        }
    }
}

#[test]
fn an_answer_of_a_refused_call_is_noticed() {
    let archive = Interface {
        collect: always_answers,
        ..REFERENCE
    };
    assert_eq!(compared(&archive, &ACCEPTED), Ok(()));
    assert!(compared(&archive, &REFUSED).is_err());
}

/// Unmaps nothing, whatever it answers.
unsafe extern "C" fn retires_nothing(
    _: *mut u8,
    _: usize,
    _: *mut u8,
    _: usize,
    _: u16,
    _: u16,
    cells: *mut u16,
) -> u16 {
    *cells = 2;
    0
}

#[test]
fn a_retirement_that_leaves_the_book_is_noticed() {
    let retire = |volume| Call::Retire { volume, day: 10 };
    let archive = Interface {
        retire: retires_nothing,
        ..REFERENCE
    };
    for volume in [0, 8] {
        assert_eq!(compared(&REFERENCE, &retire(volume)), Ok(()));
        assert!(compared(&archive, &retire(volume)).is_err());
    }
}

/// Even if the reference did the same: a refused call changes nothing.
#[test]
fn a_refused_call_that_changes_the_book_is_noticed() {
    let Stored { book, .. } = cases::after_d();
    let mut changed = book.clone();
    changed[0] ^= 1;
    let request = Request::Form { book: &changed };
    let seen = request.send(&mut Prng::seeded(0), &REFERENCE).unwrap();
    assert_eq!(seen.number, 1);
    assert!(seen::compare(&[("the book", &book)], &seen, &seen).is_err());
}

/// Writes before it looks whether there is room.
unsafe extern "C" fn writes_first(
    book: *const u8,
    length: usize,
    volume: u16,
    out: *mut u8,
    out_len: usize,
) -> u16 {
    *out ^= 1;
    (REFERENCE.cells)(book, length, volume, out, out_len)
}

/// Writes a byte after the rows.
unsafe extern "C" fn writes_more(
    book: *const u8,
    length: usize,
    volume: u16,
    out: *mut u8,
    out_len: usize,
) -> u16 {
    *out.add(8) ^= 1;
    (REFERENCE.cells)(book, length, volume, out, out_len)
}

#[test]
fn an_output_that_is_written_elsewhere_is_noticed() {
    for room in [7, 8, 9] {
        assert_eq!(compared_cells(&REFERENCE, room), Ok(()));
    }
    let first = Interface {
        cells: writes_first,
        ..REFERENCE
    };
    assert_eq!(compared_cells(&first, 8), Ok(()));
    assert!(compared_cells(&first, 7).is_err());
    let more = Interface {
        cells: writes_more,
        ..REFERENCE
    };
    for room in [7, 8, 9] {
        assert!(compared_cells(&more, room).is_err());
    }
}

/// Writes the first block before it looks whether there is room for the second.
unsafe extern "C" fn restores_first(
    book: *const u8,
    book_len: usize,
    pool: *const u8,
    pool_len: usize,
    volume: u16,
    number: u16,
    first: u16,
    length: u16,
    out: *mut u8,
    out_len: usize,
) -> u16 {
    let call = |length| {
        (REFERENCE.restore)(
            book, book_len, pool, pool_len, volume, number, first, length, out, out_len,
        )
    };
    call(1);
    call(length)
}

/// Restores, and writes a byte after the run if there is one.
unsafe extern "C" fn restores_more(
    book: *const u8,
    book_len: usize,
    pool: *const u8,
    pool_len: usize,
    volume: u16,
    number: u16,
    first: u16,
    length: u16,
    out: *mut u8,
    out_len: usize,
) -> u16 {
    let after = 512 * usize::from(length);
    if after < out_len {
        *out.add(after) ^= 1;
    }
    (REFERENCE.restore)(
        book, book_len, pool, pool_len, volume, number, first, length, out, out_len,
    )
}

#[test]
fn a_run_that_is_written_elsewhere_is_noticed() {
    for room in [1_023, 1_024, 1_025] {
        assert_eq!(compared_run(&REFERENCE, room), Ok(()));
    }
    let first = Interface {
        restore: restores_first,
        ..REFERENCE
    };
    assert_eq!(compared_run(&first, 1_024), Ok(()));
    assert!(compared_run(&first, 1_023).is_err());
    let more = Interface {
        restore: restores_more,
        ..REFERENCE
    };
    assert_eq!(compared_run(&more, 1_024), Ok(()));
    assert!(compared_run(&more, 1_025).is_err());
}

/// Writes the layout number before it looks whether there is room for the rest.
unsafe extern "C" fn converts_first(
    book: *const u8,
    length: usize,
    out: *mut u8,
    out_len: usize,
) -> u16 {
    *out = 1;
    (REFERENCE.convert_2_1)(book, length, out, out_len)
}

/// Converts, and writes a byte after the book if there is one.
unsafe extern "C" fn converts_more(
    book: *const u8,
    length: usize,
    out: *mut u8,
    out_len: usize,
) -> u16 {
    if out_len > 276 {
        *out.add(276) ^= 1;
    }
    (REFERENCE.convert_2_1)(book, length, out, out_len)
}

#[test]
fn a_book_that_is_written_elsewhere_is_noticed() {
    let compared = |archive: &Interface, room| compared_book(archive, Way::TwoToOne, room);
    for room in [275, 276, 277] {
        assert_eq!(compared(&REFERENCE, room), Ok(()));
    }
    let first = Interface {
        convert_2_1: converts_first,
        ..REFERENCE
    };
    assert_eq!(compared(&first, 276), Ok(()));
    assert!(compared(&first, 275).is_err());
    let more = Interface {
        convert_2_1: converts_more,
        ..REFERENCE
    };
    assert_eq!(compared(&more, 276), Ok(()));
    assert!(compared(&more, 277).is_err());
}

/// Writes layout 3, with the expiries that it was given.
unsafe extern "C" fn converts_the_number_alone(
    book: *const u8,
    length: usize,
    out: *mut u8,
    out_len: usize,
) -> u16 {
    let number = (REFERENCE.convert_2_3)(book, length, out, out_len);
    if number == 0 {
        std::ptr::copy_nonoverlapping(book.add(2), out.add(2), length - 2);
    }
    number
}

#[test]
fn an_expiry_that_stays_is_noticed() {
    let compared = |archive: &Interface, room| compared_book(archive, Way::TwoToThree, room);
    let archive = Interface {
        convert_2_3: converts_the_number_alone,
        ..REFERENCE
    };
    for room in [279, 280, 281] {
        assert_eq!(compared(&REFERENCE, room), Ok(()));
        assert_eq!(compared(&archive, room).is_err(), room >= 280);
    }
}

/// Collects, and then plays the list if there is room for it.
unsafe extern "C" fn collects_first(
    book: *mut u8,
    book_len: usize,
    pool: *mut u8,
    pool_len: usize,
    spare: *mut u8,
    spare_len: usize,
    calls: *const u8,
    calls_len: usize,
    answers: *mut u8,
    answers_len: usize,
    written: *mut u32,
) -> u16 {
    (REFERENCE.collect)(book, book_len, 20, &mut 0);
    (REFERENCE.play)(
        book,
        book_len,
        pool,
        pool_len,
        spare,
        spare_len,
        calls,
        calls_len,
        answers,
        answers_len,
        written,
    )
}

/// Plays the list, and writes a byte after the answers.
unsafe extern "C" fn answers_more(
    book: *mut u8,
    book_len: usize,
    pool: *mut u8,
    pool_len: usize,
    spare: *mut u8,
    spare_len: usize,
    calls: *const u8,
    calls_len: usize,
    answers: *mut u8,
    answers_len: usize,
    written: *mut u32,
) -> u16 {
    *answers.add(6) ^= 1;
    (REFERENCE.play)(
        book,
        book_len,
        pool,
        pool_len,
        spare,
        spare_len,
        calls,
        calls_len,
        answers,
        answers_len,
        written,
    )
}

#[test]
fn a_list_that_does_more_is_noticed() {
    for room in [5, 6, 7] {
        assert_eq!(compared_list(&REFERENCE, room), Ok(()));
        for play in [collects_first, answers_more] {
            let archive = Interface { play, ..REFERENCE };
            assert!(compared_list(&archive, room).is_err());
        }
    }
}

#[test]
fn what_never_came_is_missing() {
    let missing = Coverage::new().report();
    for number in 0..=22 {
        assert!(missing.contains(&format!("number {number}")));
    }
    assert!(missing.contains(&"audit 2".into()));
    assert!(missing.contains(&"audit 2 in a list".into()));
    assert!(missing.contains(&"restore 21 in a list".into()));
    assert!(missing.contains(&"retire 13".into()));
    assert!(missing.contains(&"retire 10 in a list".into()));
    assert!(missing.contains(&"convert_2_1 22".into()));
    assert!(missing.contains(&"convert_2_3 4".into()));
}
