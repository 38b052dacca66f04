//! What a seeded run is made for: its sizes, and the blocks and lists that its aids send.

use crate::layout::{Sizes, BLOCKS_RANGE, LBNS_RANGE, RECORDS_RANGE, SLOTS_RANGE};
use crate::prng::Prng;
use crate::random_lists::RandomLists;

#[derive(Clone, Copy, Debug, PartialEq, Eq)]
pub enum Shape {
    /// Small all over, so that every refusal comes soon.
    Small,
    /// Several aids that send the same few blocks.
    Sharing,
    /// Fewer blocks in the pool than the aids send.
    TinyPool,
    FewSlots,
    ShortJournal,
    /// One block in so many cells that its count passes 255.
    WideCounts,
    /// Rows of changed blocks that a list has in several runs.
    Pieces,
    /// Each size from 1 to its largest, small and large ones alike.
    AnySizes,
    /// Up to 1,024 changes in a list.
    LongLists,
    Largest,
}

impl Shape {
    /// Those whose runs take milliseconds.
    pub const QUICK: [Shape; 6] = [
        Shape::Small,
        Shape::Sharing,
        Shape::WideCounts,
        Shape::TinyPool,
        Shape::FewSlots,
        Shape::ShortJournal,
    ];

    /// How many calls a run has: fewer where it fills up soon or each call takes long.
    pub fn calls(self) -> usize {
        match self {
            Shape::FewSlots | Shape::ShortJournal => 40,
            Shape::Pieces => 60,
            Shape::LongLists => 50,
            Shape::Largest => 60,
            _ => 150,
        }
    }

    /// Both ends of each size: blocks, LBNs, slots, records.
    fn bounds(self) -> [(u16, u16); 4] {
        match self {
            Shape::Small => [(1, 12), (4, 8), (10, 60), (40, 250)],
            Shape::Sharing => [(8, 40), (8, 16), (30, 200), (150, 1_000)],
            Shape::TinyPool => [(1, 3), (1, 4), (30, 120), (100, 500)],
            Shape::FewSlots => [(4, 24), (4, 8), (1, 6), (40, 250)],
            Shape::ShortJournal => [(4, 24), (4, 8), (10, 60), (1, 16)],
            Shape::WideCounts => [(2, 24), (48, 128), (60, 200), (4_000, 9_000)],
            Shape::Pieces => [(60, 200), (65, 200), (20, 60), (1_000, 3_000)],
            Shape::AnySizes => [(1, 4_096), (1, 1_024), (1, 1_024), (1, 16_384)],
            Shape::LongLists => [(600, 1_400), (1_024, 1_024), (10, 40), (8_000, 16_384)],
            Shape::Largest => {
                let ends = [BLOCKS_RANGE, LBNS_RANGE, SLOTS_RANGE, RECORDS_RANGE];
                ends.map(|range| (*range.end(), *range.end()))
            }
        }
    }

    pub(super) fn sizes(self, prng: &mut Prng) -> Sizes {
        let [blocks, lbns, slots, records] = self.bounds().map(|(low, high)| match self {
            Shape::AnySizes => prng.spread(low, high),
            _ => prng.between(low, high),
        });
        Sizes {
            blocks,
            lbns,
            slots,
            records,
        }
    }

    pub(super) fn volumes(self, prng: &mut Prng) -> u16 {
        match self {
            Shape::Sharing | Shape::WideCounts => prng.between(6, 8),
            Shape::TinyPool => prng.between(1, 2),
            Shape::Largest => 8,
            _ => prng.between(1, 8),
        }
    }

    pub(super) fn lists(self, prng: &mut Prng, sizes: Sizes) -> RandomLists {
        let letters = match self {
            Shape::TinyPool => sizes.blocks + 2,
            Shape::WideCounts => prng.between(1, 3),
            Shape::Largest => 3_000,
            _ => prng.between(1, 1 + sizes.blocks / 2),
        };
        let (row_max, zeros_once_in, whole_once_in) = match self {
            Shape::WideCounts => (64, 2, 4),
            Shape::Pieces => (150, 4, 12),
            Shape::LongLists => (200, 12, 3),
            Shape::Largest | Shape::AnySizes => (400, 4, 12),
            _ => (4, 4, 12),
        };
        RandomLists {
            lbns: sizes.lbns,
            letters,
            first_letter: 0,
            row_max: sizes.lbns.min(row_max),
            zeros_once_in,
            whole_once_in,
        }
    }
}
