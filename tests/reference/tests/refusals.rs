//! Every number of refusal, the order of the checks, and that a refusal changes nothing.

use reference::call::Stored;
use reference::cases::{after_d, block, fingerprint, list, list_of, SIZES};
use reference::layout::{Book, Entry, Header, Lbn, Pbn, HELD};
use reference::refusal::Refusal;
use reference::store::{self, BackedUp};

/// The arguments of a call with every fault numbered `from` or more.
struct Faulty {
    stored: Stored,
    from: u16,
}

impl Faulty {
    /// A box with faults 1 to 4 as far as they are asked for.
    fn new(mut stored: Stored, from: u16) -> Self {
        if from <= 2 {
            Book::over(&mut stored.book[..]).set_header(Header::Zero, 1);
        }
        if from <= 1 {
            stored.book.push(0);
        }
        if from <= 3 {
            stored.pool.pop();
        }
        if from <= 4 {
            stored.spare.truncate(stored.book.len() - 1);
        }
        Faulty { stored, from }
    }

    fn either<T>(&self, fault: u16, faulty: T, sound: T) -> T {
        if self.from <= fault {
            faulty
        } else {
            sound
        }
    }

    fn backup(&mut self) -> Result<BackedUp, Refusal> {
        let volume = self.either(5, 8, 0);
        let day = self.either(7, 60_001, 11);
        let letters = self.either(10, "XXXX", "X");
        let mut list = list(&[(0, letters)]);
        if self.from <= 8 {
            list.push(0);
        }
        let Stored { book, pool, spare } = &mut self.stored;
        store::backup(book, pool, spare, volume, day, &list)
    }

    fn read(&self) -> Result<&[u8], Refusal> {
        let volume = self.either(5, 2, 1);
        let number = self.either(15, 0, self.either(16, 1, 2));
        let lbn = self.either(17, 4, self.either(18, 0, 3));
        let Stored { book, pool, .. } = &self.stored;
        store::read(book, pool, volume, number, lbn)
    }
}

fn refused<T: std::fmt::Debug>(result: Result<T, Refusal>) -> u16 {
    result.expect_err("a refusal").number()
}

/// A box with the last slots used by backups without changes.
fn with_all_slots_used() -> Stored {
    let mut stored = after_d();
    for (volume, day) in [(0, 9), (1, 10)] {
        let Stored { book, pool, spare } = &mut stored;
        store::backup(book, pool, spare, volume, day, &[0, 0]).unwrap();
    }
    stored
}

/// A held block that the letter X would find, with other bytes.
fn with_other_x(mut stored: Stored) -> Stored {
    let mut book = Book::over(&mut stored.book[..]);
    book.edit_entry(Pbn(0), |entry| entry.fingerprint = fingerprint('X'));
    stored
}

#[test]
fn backup_checks_in_order() {
    for from in [1, 2, 3, 4, 5, 7, 8, 9, 10, 11] {
        let stored = if from <= 9 {
            with_all_slots_used()
        } else {
            after_d()
        };
        let mut faulty = Faulty::new(with_other_x(stored), from);
        let before = faulty.stored.clone();
        assert_eq!(refused(faulty.backup()), from);
        assert_eq!(faulty.stored.book, before.book);
        assert_eq!(faulty.stored.pool, before.pool);
    }
    let mut sound = Faulty::new(after_d(), 12);
    assert_eq!(sound.backup().unwrap().number, 3);
}

#[test]
fn read_checks_in_order() {
    let mut stored = after_d();
    store::collect(&mut stored.book, 13).unwrap();
    for from in [1, 2, 3, 5, 15, 16, 17, 18] {
        assert_eq!(refused(Faulty::new(stored.clone(), from).read()), from);
    }
    let sound = Faulty::new(stored, 19);
    assert_eq!(sound.read(), Ok(&block('B')[..]));
}

#[test]
fn calls_on_the_book_alone_check_in_order() {
    for from in [1, 2, 5, 6, 7] {
        let mut faulty = Faulty::new(after_d(), from);
        let volume = faulty.either(5, 1, 2);
        let retention = faulty.either(6, 0, 1);
        let day = faulty.either(7, 8, 9);
        let book = &mut faulty.stored.book;
        let before = book.clone();
        if from != 7 {
            assert_eq!(refused(store::enrol(book, volume, retention)), from);
        }
        let collect = refused(store::collect(book, day));
        assert_eq!(collect, if from <= 2 { from } else { 7 });
        if from <= 2 {
            assert_eq!(refused(store::audit(book)), from);
        }
        assert_eq!(*book, before);
    }
}

#[test]
fn format_refuses_a_wrong_length() {
    for length in [0, 1, 20, 276, 279, 281] {
        let mut book = vec![7; length];
        assert_eq!(refused(store::format(&mut book, SIZES)), 1);
        assert_eq!(book, vec![7; length]);
    }
}

/// The box after case d with one entry changed.
fn with_entry(pbn: u16, change: impl FnOnce(&mut Entry)) -> Stored {
    let mut stored = after_d();
    Book::over(&mut stored.book[..]).edit_entry(Pbn(pbn), change);
    stored
}

fn backup(stored: &mut Stored, runs: &[(u16, &str)]) -> Result<BackedUp, Refusal> {
    let before = stored.clone();
    let Stored { book, pool, spare } = stored;
    let result = store::backup(book, pool, spare, 0, 10, &list(runs));
    if result.is_err() {
        assert!(*book == before.book && *pool == before.pool);
    }
    result
}

#[test]
fn found_block_has_other_bytes() {
    let mut stored = after_d();
    stored.pool[2 * 512 + 511] ^= 1;
    assert_eq!(refused(backup(&mut stored, &[(0, "C")])), 11);
}

#[test]
fn block_taken_earlier_has_its_changes_bytes() {
    let mut stored = after_d();
    assert_eq!(backup(&mut stored, &[(0, "XX")]).unwrap().taken, 1);
    let mut stored = after_d();
    let changes = [
        (fingerprint('X'), block('X')),
        (fingerprint('X'), block('Y')),
    ];
    let list = list_of(&[(0, 2)], &changes);
    let Stored { book, pool, spare } = &mut stored;
    assert_eq!(refused(store::backup(book, pool, spare, 0, 10, &list)), 11);
}

#[test]
fn no_free_block() {
    assert_eq!(refused(backup(&mut after_d(), &[(0, "XY")])), 12);
}

#[test]
fn before_uncounted() {
    let mut stored = with_entry(1, |entry| entry.count = 0);
    assert_eq!(refused(backup(&mut stored, &[(1, "C")])), 13);
}

#[test]
fn count_full() {
    let full = || with_entry(2, |entry| entry.count = 65_535);
    assert_eq!(refused(backup(&mut full(), &[(1, "C")])), 14);
    assert_eq!(refused(backup(&mut full(), &[(2, "C")])), 14);
    // The same block again: lowered before it is raised.
    let mut stored = full();
    assert_eq!(backup(&mut stored, &[(0, "C")]).unwrap().touched, 2);
    let entry = Book::over(&stored.book[..]).entry(Pbn(2));
    assert_eq!((entry.count, entry.expiry), (65_535, 18));
    for count in [255, 256, 511, 65_534] {
        let mut stored = with_entry(2, |entry| entry.count = count);
        assert!(backup(&mut stored, &[(1, "C")]).is_ok());
        let entry = Book::over(&stored.book[..]).entry(Pbn(2));
        assert_eq!(entry.count, count + 1);
    }
}

#[test]
fn checks_at_one_change_in_order() {
    // Other bytes before an uncounted before.
    let mut stored = with_entry(1, |entry| entry.count = 0);
    stored.pool[2 * 512] ^= 1;
    assert_eq!(refused(backup(&mut stored, &[(1, "C")])), 11);
    // No free block before an uncounted before.
    let mut stored = with_entry(1, |entry| entry.count = 0);
    assert!(backup(&mut stored, &[(2, "X")]).is_ok());
    let Stored { book, pool, spare } = &mut stored;
    let result = store::backup(book, pool, spare, 0, 11, &list(&[(1, "Y")]));
    assert_eq!(refused(result), 12);
    // An uncounted before ahead of a full count.
    let mut stored = with_entry(1, |entry| entry.count = 0);
    Book::over(&mut stored.book[..]).edit_entry(Pbn(2), |entry| entry.count = 65_535);
    assert_eq!(refused(backup(&mut stored, &[(1, "C")])), 13);
}

#[test]
fn the_first_change_that_is_stopped_decides() {
    let mut stored = with_entry(2, |entry| entry.count = 65_535);
    stored.pool[512] ^= 1;
    assert_eq!(refused(backup(&mut stored, &[(2, "CB")])), 14);
    assert_eq!(refused(backup(&mut stored, &[(2, "BC")])), 11);
}

#[test]
fn a_free_before_is_taken_and_then_refused() {
    let mut stored = after_d();
    Book::over(&mut stored.book[..]).set_cell(0, Lbn(2), Pbn(3));
    assert_eq!(refused(backup(&mut stored, &[(2, "X")])), 13);
}

#[test]
fn the_lowest_numbered_of_equal_fingerprints_is_found() {
    let mut stored = with_entry(0, |entry| entry.fingerprint = fingerprint('C'));
    assert_eq!(refused(backup(&mut stored, &[(2, "C")])), 11);
    stored.pool[..512].fill(b'C');
    let answer = backup(&mut stored, &[(2, "C")]).unwrap();
    assert_eq!((answer.taken, answer.touched), (0, 1));
    let book = Book::over(&stored.book[..]);
    assert_eq!(book.cell(0, Lbn(2)), Pbn(0));
}

#[test]
fn a_held_zero_fingerprint_is_found_and_a_free_one_is_not() {
    let zero = [([0; 16], block('Z'))];
    let list = list_of(&[(2, 1)], &zero);
    let mut stored = after_d();
    let Stored { book, pool, spare } = &mut stored;
    let first = store::backup(book, pool, spare, 0, 10, &list).unwrap();
    let second = store::backup(book, pool, spare, 0, 11, &list).unwrap();
    assert_eq!((first.taken, second.taken), (1, 0));
    let entry = Book::over(&book[..]).entry(Pbn(3));
    assert_eq!((entry.state, entry.count, entry.expiry), (HELD, 1, 20));
}
