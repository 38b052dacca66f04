//! A run of a backup's blocks in one call: what the reads one by one give, in order.

use super::kept_backup;
use crate::layout::{Lbn, BLOCK_BYTES};
use crate::refusal::{require, Refusal};

/// The LBNs from `first` on, so many of them, of a volume's backup.
#[derive(Clone, Copy, Debug, PartialEq, Eq)]
pub struct Run {
    pub volume: u16,
    pub number: u16,
    pub first: u16,
    pub length: u16,
}

impl Run {
    /// How many bytes its blocks have.
    pub fn bytes(self) -> usize {
        BLOCK_BYTES * usize::from(self.length)
    }

    /// The LBN after its last one.
    pub fn end(self) -> u32 {
        u32::from(self.first) + u32::from(self.length)
    }
}

/// Writes the blocks of a run to the front of the output. No byte is written before every block is
/// found.
pub fn restore(book: &[u8], pool: &[u8], run: Run, output: &mut [u8]) -> Result<(), Refusal> {
    let backup = kept_backup(book, pool, run.volume, run.number)?;
    let lbns = backup.book.sizes().lbns;
    require(run.end() <= lbns.into(), Refusal::Run)?;
    require(run.bytes() <= output.len(), Refusal::Run)?;
    let mut blocks = Vec::new();
    for lbn in (run.first..).take(run.length.into()) {
        let pbn = backup.locate(Lbn(lbn))?;
        blocks.extend_from_slice(&pool[pbn.pool_range()]);
    }
    for (place, byte) in output.iter_mut().zip(&blocks) {
        *place = *byte;
    }
    Ok(())
}
