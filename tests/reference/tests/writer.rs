//! The aid's writer: longest runs and their pieces, what the reader recovers, refusals 19 and 20.

use reference::change_list::{list_bound, list_bytes, read, write};
use reference::prng::Prng;
use reference::refusal::Refusal;

/// Marks with their fingerprints and image, all bytes random.
struct Aid {
    marks: Vec<u8>,
    fingerprints: Vec<u8>,
    image: Vec<u8>,
}

impl Aid {
    fn new(prng: &mut Prng, marks: Vec<u8>) -> Self {
        let mut fingerprints = vec![0; 16 * marks.len()];
        let mut image = vec![0; 512 * marks.len()];
        prng.fill(&mut fingerprints);
        prng.fill(&mut image);
        Aid {
            marks,
            fingerprints,
            image,
        }
    }

    fn write(&self, output: &mut [u8]) -> Result<u32, Refusal> {
        let lbns = self.marks.len() as u16;
        write(lbns, &self.marks, &self.fingerprints, &self.image, output)
    }

    fn reads_back(&self, list: &[u8]) {
        let list = read(list, self.marks.len() as u16).unwrap();
        let changes: Vec<_> = list.changes().collect();
        let marked = (0..self.marks.len()).filter(|&lbn| self.marks[lbn] == 1);
        assert!(marked.eq(changes.iter().map(|change| change.lbn.index())));
        for change in changes {
            let lbn = change.lbn.index();
            assert_eq!(change.fingerprint, &self.fingerprints[16 * lbn..][..16]);
            assert_eq!(change.block, &self.image[512 * lbn..][..512]);
        }
    }
}

#[test]
fn pairs_are_longest_runs() {
    let marks = vec![1, 1, 0, 1, 0, 0, 1, 1, 1];
    let aid = Aid::new(&mut Prng::seeded(1), marks);
    let mut output = vec![0xEE; list_bytes(3, 6) + 5];
    assert_eq!(aid.write(&mut output), Ok(list_bytes(3, 6) as u32));
    let pairs = [3, 0, 0, 0, 2, 0, 3, 0, 1, 0, 6, 0, 3, 0];
    assert_eq!(output[..14], pairs);
    assert_eq!(output[list_bytes(3, 6)..], [0xEE; 5]);
}

/// Marks of so many LBNs, with ones in these rows.
fn rows(lbns: usize, rows: &[(usize, usize)]) -> Vec<u8> {
    let mut marks = vec![0; lbns];
    for &(first, length) in rows {
        marks[first..first + length].fill(1);
    }
    marks
}

/// The pairs of the list that is written for marks. The reader recovers them from it, and a byte
/// less is too short.
fn pairs_written(marks: Vec<u8>) -> Vec<(u16, u16)> {
    let marked = marks.iter().filter(|&&mark| mark == 1).count();
    let aid = Aid::new(&mut Prng::seeded(7), marks);
    let mut list = vec![0; list_bound(aid.marks.len())];
    let length = aid.write(&mut list).unwrap() as usize;
    list.truncate(length);
    aid.reads_back(&list);
    let number = usize::from(u16::from_le_bytes([list[0], list[1]]));
    assert_eq!(length, list_bytes(number, marked));
    let mut short = vec![7; length - 1];
    assert_eq!(aid.write(&mut short), Err(Refusal::ShortOutput));
    assert!(short.iter().all(|&byte| byte == 7));
    let pairs = list[2..2 + 4 * number].as_chunks().0;
    let pair = |&[a, b, c, d]: &[u8; 4]| (u16::from_le_bytes([a, b]), u16::from_le_bytes([c, d]));
    pairs.iter().map(pair).collect()
}

#[test]
fn a_longest_run_is_cut_into_pieces_of_64_the_rest_last() {
    let lengths: [(usize, &[u16]); 8] = [
        (1, &[1]),
        (63, &[63]),
        (64, &[64]),
        (65, &[64, 1]),
        (66, &[64, 2]),
        (128, &[64, 64]),
        (129, &[64, 64, 1]),
        (1_024, &[64; 16]),
    ];
    for (length, pieces) in lengths {
        for first in [0, 1, 37, 64, 1_024 - length] {
            if first + length > 1_024 {
                continue;
            }
            let starts = (first as u16..).step_by(64);
            let pairs: Vec<_> = starts.zip(pieces.iter().copied()).collect();
            // In the volume's midst, at its end, and as all of it.
            for lbns in [1_024, first + length] {
                assert_eq!(pairs_written(rows(lbns, &[(first, length)])), pairs);
            }
        }
    }
}

#[test]
fn each_longest_run_is_cut_from_its_own_start() {
    let marks = rows(500, &[(10, 200), (211, 200), (450, 3)]);
    let pairs = [
        (10, 64),
        (74, 64),
        (138, 64),
        (202, 8),
        (211, 64),
        (275, 64),
        (339, 64),
        (403, 8),
        (450, 3),
    ];
    assert_eq!(pairs_written(marks), pairs);
    let at_the_end = rows(100, &[(0, 34), (35, 65)]);
    assert_eq!(pairs_written(at_the_end), [(0, 34), (35, 64), (99, 1)]);
}

/// Room for one pair a longest run isn't enough where it has several pieces.
#[test]
fn every_piece_needs_its_pair() {
    for (length, pieces) in [(65, 2), (128, 2), (129, 3), (1_024, 16)] {
        let aid = Aid::new(&mut Prng::seeded(8), vec![1; length]);
        assert_eq!(list_bound(length), list_bytes(pieces, length));
        for room in list_bytes(1, length)..list_bound(length) {
            let result = aid.write(&mut vec![0; room]);
            assert_eq!(result, Err(Refusal::ShortOutput));
        }
        let written = aid.write(&mut vec![0; list_bound(length)]);
        assert_eq!(written, Ok(list_bound(length) as u32));
    }
}

#[test]
fn no_marks_give_two_zero_bytes() {
    let aid = Aid::new(&mut Prng::seeded(2), vec![0; 5]);
    let mut output = [9; 2];
    assert_eq!(aid.write(&mut output), Ok(2));
    assert_eq!(output, [0, 0]);
    assert_eq!(aid.write(&mut [9; 1]), Err(Refusal::ShortOutput));
}

#[test]
fn the_reader_recovers_what_was_marked() {
    let mut prng = Prng::seeded(3);
    for round in 0..300 {
        let lbns = if round == 0 {
            1_024
        } else {
            1 + prng.index(40)
        };
        let density = 1 + prng.below(4);
        let marks: Vec<u8> = (0..lbns).map(|_| prng.once_in(density).into()).collect();
        let aid = Aid::new(&mut prng, marks);
        let mut output = vec![0; list_bound(lbns)];
        let written = aid.write(&mut output).unwrap() as usize;
        aid.reads_back(&output[..written]);
        let mut exact = vec![0; written];
        assert_eq!(aid.write(&mut exact), Ok(written as u32));
        assert_eq!(exact, output[..written]);
        let mut short = vec![7; written - 1];
        assert_eq!(aid.write(&mut short), Err(Refusal::ShortOutput));
        assert!(short.iter().all(|&byte| byte == 7));
    }
}

#[test]
fn both_ends_of_the_number_of_blocks() {
    for lbns in [1, 1_024] {
        let aid = Aid::new(&mut Prng::seeded(4), vec![1; lbns]);
        let mut output = vec![0; list_bound(lbns)];
        assert_eq!(aid.write(&mut output), Ok(output.len() as u32));
        aid.reads_back(&output);
    }
    for lbns in [0, 1_025] {
        let aid = Aid::new(&mut Prng::seeded(5), vec![0; lbns]);
        assert_eq!(aid.write(&mut [0; 2]), Err(Refusal::Input));
    }
}

#[test]
fn wrong_inputs_are_refused_before_a_short_output() {
    let sound = || Aid::new(&mut Prng::seeded(6), vec![1, 0, 1]);
    let spoils: [fn(&mut Aid); 8] = [
        |aid| aid.marks[2] = 2,
        |aid| aid.marks[1] = 255,
        |aid| aid.fingerprints.push(0),
        |aid| aid.fingerprints.truncate(47),
        |aid| aid.image.push(0),
        |aid| aid.image.truncate(1_535),
        |aid| aid.marks.push(0),
        |aid| aid.marks.truncate(2),
    ];
    for spoil in spoils {
        let mut aid = sound();
        spoil(&mut aid);
        let Aid {
            marks,
            fingerprints,
            image,
        } = &aid;
        let mut output = [3; 1];
        let result = write(3, marks, fingerprints, image, &mut output);
        assert_eq!(result.map_err(Refusal::number), Err(19));
        assert_eq!(output, [3]);
    }
    assert_eq!(sound().write(&mut [3; 1]).map_err(Refusal::number), Err(20));
}
