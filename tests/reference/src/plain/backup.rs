//! The plain store's backup: steps 1 and 2 for each change, on a copy of the current map.

use std::rc::Rc;

use super::{held_in, Blocks, Content, Map, Plain};
use crate::change_list::{Change, ChangeList};
use crate::layout::{Fingerprint, Pbn, UNMAPPED};
use crate::refusal::{require, Refusal};

/// What a backup makes of the store's blocks and of the volume's map.
pub(super) struct Made {
    pub blocks: Blocks,
    pub cursor: u16,
    pub map: Map,
    pub taken: u16,
    /// Changes whose cell had a before.
    pub befores: u16,
}

/// Makes all changes of the list; stops at the first that is refused.
pub(super) fn make(store: &Plain, volume: u16, list: &ChangeList) -> Result<Made, Refusal> {
    let mut made = Made {
        blocks: store.blocks.clone(),
        cursor: store.cursor,
        map: store.current_map(volume as u8),
        taken: 0,
        befores: 0,
    };
    for change in list.changes() {
        made.apply(change)?;
    }
    Ok(made)
}

impl Made {
    fn apply(&mut self, change: Change) -> Result<(), Refusal> {
        let pbn = match self.held_with(change.fingerprint) {
            Some((pbn, content)) => {
                require(content.bytes == *change.block, Refusal::OtherBytes)?;
                pbn
            }
            None => self.take(change)?,
        };
        let lbn = change.lbn.index();
        if self.map[lbn] != UNMAPPED {
            self.befores += 1;
        }
        self.map[lbn] = pbn;
        Ok(())
    }

    /// By plain equality: the box, which compares from the far end, is compared with this.
    fn held_with(&self, fingerprint: &Fingerprint) -> Option<(Pbn, &Content)> {
        held_in(&self.blocks).find(|(_, content)| content.fingerprint == *fingerprint)
    }

    fn take(&mut self, change: Change) -> Result<Pbn, Refusal> {
        let blocks = self.blocks.len() as u16;
        let free = (0..blocks)
            .map(|step| Pbn((self.cursor + step) % blocks))
            .find(|pbn| self.blocks[pbn.index()].is_none());
        let pbn = free.ok_or(Refusal::NoFreeBlock)?;
        self.blocks[pbn.index()] = Some(Rc::new(Content {
            fingerprint: *change.fingerprint,
            bytes: *change.block,
        }));
        self.cursor = (pbn.0 + 1) % blocks;
        self.taken += 1;
        Ok(pbn)
    }
}
