//! Shapes of the aid's writer.

use reference::change_list::list_bytes;

use super::{Shape, MOST};
use crate::request::WriteList;
use crate::seen::Seen;

/// Lengths of longest runs around those of whole pieces.
const LENGTHS: [(usize, &str); 7] = [
    (63, "a longest run of 63"),
    (64, "a longest run of 64"),
    (65, "a longest run of 65"),
    (66, "a longest run of 66"),
    (128, "a longest run of 128"),
    (129, "a longest run of 129"),
    (1_024, "a longest run of 1,024"),
];

pub struct Written<'a> {
    input: &'a WriteList,
    number: u16,
    length: usize,
    marked: usize,
    /// The lengths of the longest runs.
    runs: Vec<usize>,
}

impl<'a> Written<'a> {
    pub fn new(input: &'a WriteList, seen: &Seen) -> Self {
        let marks = &input.marks;
        let rows = marks.split(|&mark| mark != 1).map(<[u8]>::len);
        Written {
            input,
            number: seen.number,
            length: seen.answers[0].1.unwrap_or(0) as usize,
            marked: marks.iter().filter(|&&mark| mark == 1).count(),
            runs: rows.filter(|&length| length > 0).collect(),
        }
    }

    pub fn shapes(&self) -> [Shape; 12] {
        let (accepted, refused) = (self.number == 0, self.number == 19);
        let lbns = usize::from(self.input.lbns);
        let output = self.input.output.len();
        let wrong = |bytes: &[u8], part: usize| refused && bytes.len() != part * lbns;
        [
            ("nothing marked", accepted && self.marked == 0),
            ("all of 1,024 marked", accepted && self.marked == 1_024),
            (
                "every second of 1,024 marked",
                accepted && self.runs == [1; 512],
            ),
            (
                "an output of just the length",
                accepted && output == self.length,
            ),
            ("a longer output", accepted && output > self.length),
            ("an empty output", self.number == 20 && output == 0),
            ("a mark of 2", refused && self.input.marks.contains(&2)),
            ("no LBNs", refused && lbns == 0),
            ("1,025 LBNs", refused && lbns == 1_025),
            ("a wrong number of marks", wrong(&self.input.marks, 1)),
            (
                "a wrong length of fingerprints",
                wrong(&self.input.prints, 16),
            ),
            ("a wrong length of the image", wrong(&self.input.image, 512)),
        ]
    }

    /// Of longest runs and the pieces that they are cut into.
    pub fn piece_shapes(&self) -> Vec<Shape> {
        let accepted = self.number == 0;
        let cut = || self.runs.iter().filter(|&&run| run > MOST);
        let to_the_end = self.input.marks.last() == Some(&1);
        let last_is_cut = accepted && self.runs.last().is_some_and(|&run| run > MOST);
        let room = self.input.output.len();
        let one_pair_each = room >= list_bytes(self.runs.len(), self.marked);
        let mut shapes: Vec<Shape> = LENGTHS
            .iter()
            .map(|(length, name)| (*name, accepted && self.runs.contains(length)))
            .collect();
        shapes.extend([
            (
                "a longest run above 64 to the volume's end",
                last_is_cut && to_the_end,
            ),
            (
                "a longest run above 64 before the volume's end",
                last_is_cut && !to_the_end,
            ),
            (
                "several pieces and no rest",
                accepted && cut().any(|run| run % MOST == 0),
            ),
            ("two longest runs above 64", accepted && cut().count() > 1),
            (
                "room for a pair a longest run, not for its pieces' pairs",
                self.number == 20 && one_pair_each,
            ),
        ]);
        shapes
    }
}
