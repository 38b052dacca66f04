//! A box whose every call goes to both sides, and whose buffers are as the archive leaves them.

use reference::call::{Call, Stored};
use reference::layout::Sizes;
use reference::prng::Prng;

use crate::outcome::Outcome;
use crate::request::Request;
use crate::seen::{Seen, BOOK, POOL, SPARE};

pub struct Tested(pub Stored);

impl Tested {
    /// A fresh book over a pool of any bytes.
    pub fn format(
        outcome: &mut Outcome,
        prng: &mut Prng,
        label: &dyn Fn() -> String,
        sizes: Sizes,
        pool: Vec<u8>,
    ) -> Option<Self> {
        let book = vec![0xA5; sizes.book_bytes()];
        let request = Request::Format { book: &book, sizes };
        let seen = outcome.compare(prng, label, request)?;
        Some(Tested(Stored {
            book: seen.content(0).to_vec(),
            pool,
            spare: book,
        }))
    }

    pub fn call(
        &mut self,
        outcome: &mut Outcome,
        prng: &mut Prng,
        label: &dyn Fn() -> String,
        call: &Call,
    ) -> Option<Seen> {
        let stored = &mut self.0;
        let seen = outcome.compare(prng, label, Request::Call { stored, call })?;
        for (name, buffer) in &seen.buffers {
            let part = match *name {
                BOOK => &mut stored.book,
                POOL => &mut stored.pool,
                SPARE => &mut stored.spare,
                _ => continue,
            };
            part.copy_from_slice(buffer.content());
        }
        Some(seen)
    }
}
