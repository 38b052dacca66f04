//! Cases a to j as one run, with every number that documents 01 and 02 give.

use reference::call::{Answer, Call, Stored};
use reference::cases::{after_d, backup, block, fingerprint, list_of, SIZES};
use reference::change_list;
use reference::form;
use reference::history::History;
use reference::layout::{Book, Entry, Header, Lbn, Pbn, Record, Slot, BACKUP, UNMAPPED};
use reference::plain::Plain;
use reference::refusal::Refusal;
use reference::store::BackedUp;

/// The box, the plain store and the history, fed the same calls.
struct Run {
    stored: Stored,
    plain: Plain,
    history: History,
}

impl Run {
    fn start() -> Self {
        let pool = vec![0x5A; SIZES.pool_bytes()];
        let mut run = Run {
            stored: Stored::new(SIZES, pool).unwrap(),
            plain: Plain::new(SIZES),
            history: History::new(SIZES.lbns),
        };
        assert_eq!(run.stored.book.len(), 280);
        for (volume, retention) in [(0, 10), (1, 3)] {
            run.answers(Call::Enrol { volume, retention }, Answer::Enrolled);
        }
        run
    }

    fn answers(&mut self, call: Call, expected: Answer) {
        let before = self.stored.clone();
        let answer = self.stored.call(&call);
        assert_eq!(answer, expected);
        assert_eq!(self.plain.call(&call), expected);
        self.history.note(&call, &answer);
        if let Answer::Refused(_) = answer {
            assert_eq!(self.stored.book, before.book);
            assert_eq!(self.stored.pool, before.pool);
        }
        assert_eq!(self.stored.call(&Call::Audit), Answer::Sound(true));
    }

    fn backs_up(&mut self, call: Call, number: u16, taken: u16, touched: u16) {
        let answer = BackedUp {
            number,
            taken,
            touched,
        };
        self.answers(call, Answer::BackedUp(answer));
    }

    fn refuses(&mut self, call: Call, number: u16) {
        let answer = self.stored.clone().call(&call);
        let Answer::Refused(refusal) = answer else {
            panic!("accepted: {answer:?}");
        };
        assert_eq!(refusal.number(), number);
        self.answers(call, answer);
    }

    fn reads(&mut self, volume: u16, number: u16, lbn: u16, letter: char) {
        let call = Call::Read {
            volume,
            number,
            lbn,
        };
        self.answers(call, Answer::Block(Box::new(block(letter))));
        let history = self.history.read(volume, number, lbn);
        assert_eq!(history, Ok(&block(letter)));
    }

    fn read_refuses(&mut self, volume: u16, number: u16, lbn: u16, refusal: Refusal) {
        let call = Call::Read {
            volume,
            number,
            lbn,
        };
        self.answers(call, Answer::Refused(refusal));
        assert_eq!(self.history.read(volume, number, lbn), Err(refusal));
    }

    fn book(&self) -> Book<&[u8]> {
        form::check(&self.stored.book).unwrap()
    }

    fn entry_is(&self, pbn: u16, count: u16, state: u8, expiry: u16, letter: char) {
        let entry = Entry {
            count,
            state,
            expiry,
            fingerprint: fingerprint(letter),
        };
        assert_eq!(self.book().entry(Pbn(pbn)), entry, "block {pbn}");
    }

    fn map_is(&self, volume: u8, cells: [u16; 4]) {
        assert_eq!(self.book().map(volume), cells.map(Pbn));
        assert_eq!(self.plain.current_map(volume), cells.map(Pbn));
    }

    fn cases_a_to_d(&mut self) {
        self.backs_up(backup(0, 5, &[(0, "AB")]), 1, 2, 2);
        self.map_is(0, [0, 1, 65_535, 65_535]);
        self.backs_up(backup(1, 6, &[(3, "A")]), 1, 0, 1);
        self.entry_is(0, 2, 1, 0, 'A');
        self.map_is(1, [65_535, 65_535, 65_535, 0]);
        self.backs_up(backup(0, 8, &[(0, "C")]), 2, 1, 2);
        self.map_is(0, [2, 1, 65_535, 65_535]);
        self.entry_is(0, 1, 1, 15, 'A');
        self.backs_up(backup(1, 9, &[(3, "B")]), 2, 0, 2);
        // Not 9, which volume 1's previous backup comes to.
        self.entry_is(0, 0, 1, 15, 'A');
        self.entry_is(1, 2, 1, 0, 'B');
        self.entry_is(2, 1, 1, 0, 'C');
        self.entry_is(3, 0, 0, 0, '\0');
    }
}

#[test]
fn cases_a_to_j() {
    let mut run = Run::start();
    run.cases_a_to_d();
    // e
    run.answers(Call::Collect { day: 18 }, Answer::Freed(1));
    run.read_refuses(0, 1, 0, Refusal::NotKept);
    run.entry_is(0, 0, 0, 15, '\0');
    // f
    run.read_refuses(1, 1, 3, Refusal::NotKept);
    // g
    run.answers(Call::Collect { day: 19 }, Answer::Freed(0));
    run.read_refuses(0, 1, 0, Refusal::NotKept);
    // h
    run.backs_up(backup(0, 20, &[(2, "DE")]), 3, 2, 2);
    run.map_is(0, [2, 1, 3, 0]);
    run.entry_is(3, 1, 1, 0, 'D');
    run.entry_is(0, 1, 1, 15, 'E');
    assert_eq!(run.book().header(Header::Cursor), 1);
    // i
    run.refuses(backup(1, 21, &[(0, "F")]), 12);
    // j
    let list = list_of(&[(0, 1)], &[(fingerprint('B'), block('F'))]);
    let call = Call::Backup {
        volume: 1,
        day: 21,
        list,
    };
    run.refuses(call, 11);
}

/// After d volume 0's first backup, of day 5, is kept to day 15, and block 0 with it.
#[test]
fn block_0_waits_to_day_15() {
    let mut run = Run::start();
    run.cases_a_to_d();
    run.answers(Call::Collect { day: 15 }, Answer::Freed(0));
    run.reads(0, 1, 0, 'A');
    run.answers(Call::Collect { day: 16 }, Answer::Freed(1));
    run.read_refuses(0, 1, 0, Refusal::NotKept);
    run.reads(0, 2, 0, 'C');
}

#[test]
fn header_and_records_after_d() {
    let stored = after_d();
    let book = form::check(&stored.book).unwrap();
    let fields = [3, 4, 4, 6, 8, 4, 5, 9, 3, 0];
    let header: Vec<u16> = stored.book[..20]
        .chunks(2)
        .map(|pair| u16::from_le_bytes([pair[0], pair[1]]))
        .collect();
    assert_eq!(header, fields);
    let slots = [(0, 5, 0, 2), (1, 6, 2, 1), (0, 8, 3, 1), (1, 9, 4, 1)];
    for (slot, (volume, day, first, number)) in slots.into_iter().enumerate() {
        let expected = Slot {
            volume,
            kind: BACKUP,
            day,
            first,
            number,
        };
        assert_eq!(book.slot(slot), expected);
    }
    let unmapped = UNMAPPED.0;
    let records = [
        (0, unmapped, 0),
        (1, unmapped, 1),
        (3, unmapped, 0),
        (0, 0, 2),
        (3, 0, 1),
    ];
    for (index, (lbn, before, after)) in records.into_iter().enumerate() {
        let expected = Record {
            lbn: Lbn(lbn),
            before: Pbn(before),
            after: Pbn(after),
        };
        assert_eq!(book.record(index), expected);
    }
}

#[test]
fn a_refused_list_leaves_no_half() {
    let mut run = Run::start();
    run.cases_a_to_d();
    // One free block: the first change would be taken, the second finds none.
    run.refuses(backup(0, 10, &[(2, "XY")]), 12);
    run.backs_up(backup(0, 10, &[(2, "X")]), 3, 1, 1);
}

#[test]
fn lists_of_letters_read_back() {
    let bytes = reference::cases::list(&[(0, "AB"), (2, "C")]);
    let list = change_list::read(&bytes, 4).unwrap();
    let lbns: Vec<u16> = list.changes().map(|change| change.lbn.0).collect();
    assert_eq!(lbns, [0, 1, 2]);
    assert_eq!(list.change(2).fingerprint, &fingerprint('C'));
    assert_eq!(list.change(1).block, &block('B'));
}
