//! Random inputs of the writer: mostly sound, some wrong, outputs of any length.

use reference::change_list::{list_bytes, write};
use reference::prng::Prng;

use crate::request::WriteList;

fn random_bytes(prng: &mut Prng, length: usize) -> Vec<u8> {
    let mut bytes = vec![0; length];
    prng.fill(&mut bytes);
    bytes
}

impl WriteList {
    pub fn random(prng: &mut Prng) -> Self {
        let lbns = match prng.below(100) {
            0 => prng.pick(&[1_023, 1_024]),
            1 => prng.pick(&[0, 0, 1_025]),
            2..=9 => prng.between(1, 3),
            10..=15 => prng.between(40, 200),
            16..=20 => prng.between(64, 400),
            _ => prng.between(1, 40),
        };
        let number = usize::from(lbns);
        let mut input = WriteList {
            lbns,
            marks: random_marks(prng, number),
            prints: random_bytes(prng, 16 * number),
            image: random_bytes(prng, 512 * number),
            output: Vec::new(),
        };
        if prng.once_in(6) {
            input.spoil(prng);
        }
        let room = input.room(prng);
        input.output = random_bytes(prng, room);
        input
    }

    /// How long its list is; 2 where there is none.
    fn exact(&self) -> usize {
        let marks = self.marks.len();
        let mut output = vec![0; list_bytes(marks, marks)];
        let written = write(
            self.lbns,
            &self.marks,
            &self.prints,
            &self.image,
            &mut output,
        );
        written.unwrap_or(2) as usize
    }

    /// A bad mark, a wrong length or another number of blocks.
    fn spoil(&mut self, prng: &mut Prng) {
        let spoiled = match prng.below(8) {
            0 | 1 if !self.marks.is_empty() => {
                let lbn = prng.index(self.marks.len());
                self.marks[lbn] = prng.pick(&[2, 3, 128, 254, 255]);
                return;
            }
            2 => {
                self.lbns = prng.pick(&[0, self.lbns + 1, 1_024, 1_025, 32_768, 65_535]);
                return;
            }
            3 => &mut self.marks,
            4 | 5 => &mut self.prints,
            _ => &mut self.image,
        };
        match prng.below(5) {
            0 => spoiled.clear(),
            1 => spoiled.truncate(prng.index(spoiled.len() + 1)),
            2 => spoiled.extend([0; 16]),
            3 => spoiled.truncate(spoiled.len().saturating_sub(1)),
            _ => spoiled.push(0),
        }
    }

    /// An output's length: too short, exact or longer.
    fn room(&self, prng: &mut Prng) -> usize {
        let exact = self.exact();
        match prng.below(11) {
            0 => prng.index(exact),
            1 => exact - 1,
            2 => prng.pick(&[0, 1, 2]),
            3..=5 => exact,
            6 => exact + 1,
            // A pair short, and two.
            7 => exact.saturating_sub(prng.pick(&[4, 5, 8])),
            _ => exact + prng.index(600),
        }
    }
}

/// Marks that are all 0, all 1, every second one, dense, sparse or in long runs.
fn random_marks(prng: &mut Prng, number: usize) -> Vec<u8> {
    match prng.below(12) {
        0 => return vec![0; number],
        1 => return vec![1; number],
        2 => return (0..number).map(|lbn| (lbn % 2) as u8).collect(),
        3..=8 if number >= 64 => return rows_of_pieces(prng, number),
        _ => {}
    }
    let (first, change_once_in) = (prng.once_in(2), prng.pick(&[1, 2, 4, 12, 5_000]));
    let mut mark = first;
    (0..number)
        .map(|_| {
            mark ^= prng.once_in(change_once_in);
            u8::from(mark)
        })
        .collect()
}

/// Marks in rows that are about as long as whole pieces, with gaps between them; the last goes to
/// the volume's end as often as not.
fn rows_of_pieces(prng: &mut Prng, number: usize) -> Vec<u8> {
    let mut marks = vec![0; number];
    let mut first = prng.index(4);
    loop {
        let any = 1 + prng.index(number);
        let length = prng.pick(&[63, 64, 65, 66, 128, 129, 192, any]);
        if first + length > number {
            break;
        }
        marks[first..first + length].fill(1);
        first += length + 1 + prng.index(20);
    }
    if prng.once_in(2) && first < number {
        marks[first..].fill(1);
    }
    marks
}
