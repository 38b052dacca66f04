//! Lengths of the buffers that the calls of the box are lent.

use reference::call::{Call, Stored};
use reference::layout::BLOCK_BYTES;

use super::Shape;

pub struct Buffers {
    book: usize,
    /// How much longer the pool is than the header's blocks ask.
    pool_over: Option<isize>,
    /// How much longer the spare is than the book.
    spare_over: Option<isize>,
    list: Option<usize>,
}

impl Buffers {
    pub fn new(stored: &Stored, call: &Call) -> Self {
        let takes_pool = matches!(call, Call::Read { .. } | Call::Backup { .. });
        let blocks = stored.book.get(2..4).filter(|_| takes_pool);
        let pool_over = blocks.map(|two| {
            let blocks = usize::from(u16::from_le_bytes([two[0], two[1]]));
            stored.pool.len() as isize - (BLOCK_BYTES * blocks) as isize
        });
        let takes_spare = matches!(call, Call::Backup { .. } | Call::Retire { .. });
        let list = match call {
            Call::Backup { list, .. } => Some(list.len()),
            _ => None,
        };
        let spare_over = stored.spare.len() as isize - stored.book.len() as isize;
        Buffers {
            book: stored.book.len(),
            pool_over,
            spare_over: takes_spare.then_some(spare_over),
            list,
        }
    }

    pub fn shapes(&self, number: u16) -> [Shape; 10] {
        let pool = |over: isize| number == 3 && self.pool_over == Some(over);
        let longer = self.spare_over.is_some_and(|over| over > 0);
        let as_long = self.spare_over == Some(0);
        let one_short = self.spare_over == Some(-1);
        [
            ("an empty book", number == 1 && self.book == 0),
            ("a book of 19 bytes", number == 1 && self.book == 19),
            ("a pool one byte short", pool(-1)),
            ("a pool one byte long", pool(1)),
            ("a pool one block long", pool(512)),
            ("a spare one byte short", number == 4 && one_short),
            ("a spare as long as the book", number == 0 && as_long),
            ("a longer spare", number == 0 && longer),
            ("an empty list", number == 8 && self.list == Some(0)),
            ("a list of one byte", number == 8 && self.list == Some(1)),
        ]
    }
}
