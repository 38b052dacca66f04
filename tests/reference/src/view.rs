//! The calls that show a book to a host, beside those that lists of calls have.

use crate::layout::Sizes;
use crate::store;

#[derive(Clone, Copy, Debug, PartialEq, Eq)]
pub enum View {
    Sizes,
    Used,
    Volume { volume: u16 },
    Backups { volume: u16 },
    Cells { volume: u16 },
    Blocks,
}

impl View {
    /// Each of them, with this volume where they take one.
    pub fn all(volume: u16) -> [View; 6] {
        [
            View::Sizes,
            View::Used,
            View::Volume { volume },
            View::Backups { volume },
            View::Cells { volume },
            View::Blocks,
        ]
    }

    /// Whether it writes rows to an output.
    pub fn has_output(self) -> bool {
        matches!(
            self,
            View::Backups { .. } | View::Cells { .. } | View::Blocks
        )
    }

    /// How many bytes its rows have; 0 for a book or a volume that is refused.
    pub fn output_bytes(self, book: &[u8]) -> usize {
        let sizes = |bytes: fn(Sizes) -> usize| store::sizes(book).map_or(0, bytes);
        match self {
            View::Sizes | View::Used | View::Volume { .. } => 0,
            View::Backups { volume } => {
                let facts = store::volume(book, volume);
                facts.map_or(0, |facts| 8 * usize::from(facts.backups))
            }
            View::Cells { .. } => sizes(|sizes| 2 * usize::from(sizes.lbns)),
            View::Blocks => sizes(|sizes| 22 * usize::from(sizes.blocks)),
        }
    }
}
