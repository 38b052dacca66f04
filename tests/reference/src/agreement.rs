//! What the box and the plain store must have alike after any list of calls: the held blocks
//! with PBN, fingerprint and bytes, and the current maps of all volumes.

mod views;

pub use views::check_view;

use crate::form;
use crate::layout::{HELD, VOLUMES};
use crate::plain::Plain;

/// Says what differs first.
pub fn check(book: &[u8], pool: &[u8], plain: &Plain) -> Result<(), String> {
    let view = form::check(book).map_err(|refusal| format!("the book has {refusal:?}"))?;
    let mut held = plain.held().peekable();
    for pbn in view.pbns() {
        let entry = view.entry(pbn);
        let content = held.next_if(|(plain_pbn, _)| *plain_pbn == pbn);
        let alike = match content {
            None => entry.state != HELD,
            Some((_, content)) => {
                entry.state == HELD
                    && entry.fingerprint == content.fingerprint
                    && pool[pbn.pool_range()] == content.bytes
            }
        };
        if !alike {
            return Err(format!("{pbn:?} isn't as in the plain store"));
        }
    }
    let differs = (0..VOLUMES).find(|&volume| view.map(volume) != plain.current_map(volume));
    match differs {
        Some(volume) => Err(format!("volume {volume}'s map isn't the plain store's")),
        None => Ok(()),
    }
}
