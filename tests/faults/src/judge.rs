//! Says how far the store in a folder is in the story, and whether all that it should hold is
//! there, by the second implementation of the box.

use std::collections::hash_map::DefaultHasher;
use std::collections::HashMap;
use std::hash::{Hash, Hasher};

use reference::history::History;
use reference::layout::{Book, Header, BLOCK_BYTES};
use reference::refusal::Refusal;
use reference::store;

use crate::digest::sha256;
use crate::sealed::{self, Length, Parts};
use crate::story::{history_of, images_of, Command, Images, Standing, Story, OUT, SIZES};
use crate::tree::Tree;

pub const BOOK: &str = "box/book";
pub const POOL: &str = "box/pool";
pub const LOCK: &str = "box/lock";
/// Volumes of the story.
pub const VOLUMES: u16 = 2;

pub struct Judge<'a> {
    story: &'a Story,
    /// What the store holds, the images that it got, and its day, by its standing; there is none
    /// at 0.
    histories: Vec<History>,
    images: Vec<Images>,
    days: Vec<u16>,
    /// What the restored file holds, by its standing.
    outs: Vec<Option<Vec<u8>>>,
    /// The standing of every book with its lengths that a command left.
    books: HashMap<(Vec<u8>, Vec<Length>), usize>,
    judged: HashMap<u64, Result<Standing, String>>,
}

impl<'a> Judge<'a> {
    pub fn new(story: &'a Story) -> Self {
        let changing = story.0.iter().filter(|c| c.changes_store()).count();
        let histories: Vec<History> = (0..=changing)
            .map(|store| history_of(story.taken(store)))
            .collect();
        let images: Vec<Images> = (0..=changing)
            .map(|store| images_of(story.taken(store)))
            .collect();
        let mut outs = vec![None];
        for (at, command) in story.0.iter().enumerate() {
            if let Command::Restore { volume, number } = command {
                let images = &images[story.standing(at).store];
                outs.push(images.get(&(*volume, *number)).cloned());
            }
        }
        Judge {
            story,
            images,
            days: (0..=changing).map(|store| story.day(store)).collect(),
            histories,
            outs,
            books: HashMap::new(),
            judged: HashMap::new(),
        }
    }

    /// A command ended well and left this store, which stands there.
    pub fn learn(&mut self, tree: &Tree, store: usize) {
        if let Some(file) = tree.file(BOOK) {
            let known = self.books.insert(key_of(&sealed::open(file)), store);
            assert!(known.is_none_or(|k| k == store), "one book, two standings");
        }
    }

    /// How far the folder is in the story; complains if it is nowhere whole.
    pub fn stands(&mut self, tree: &Tree) -> Result<Standing, String> {
        let mut hasher = DefaultHasher::new();
        for name in [BOOK, POOL, LOCK, OUT] {
            tree.file(name).hash(&mut hasher);
        }
        let key = hasher.finish();
        if let Some(known) = self.judged.get(&key) {
            return known.clone();
        }
        let verdict = self.judge(tree);
        self.judged.insert(key, verdict.clone());
        verdict
    }

    /// The same for a book that may be new, between two standings.
    pub fn finds(&self, tree: &Tree, low: Standing, high: Standing) -> Result<Standing, String> {
        let out = self.restored(tree, low.out, high.out)?;
        if tree.file(BOOK).is_none() && low.store == 0 {
            return Ok(Standing { store: 0, out });
        }
        let mut complaint = String::new();
        for store in (low.store.max(1)..=high.store).rev() {
            match self.holds(tree, store) {
                Ok(()) => return Ok(Standing { store, out }),
                Err(why) => complaint = why,
            }
        }
        Err(complaint)
    }

    /// Which of its versions the restored file is.
    fn restored(&self, tree: &Tree, low: usize, high: usize) -> Result<usize, String> {
        (low..=high)
            .rev()
            .find(|&out| self.outs[out].as_deref() == tree.file(OUT))
            .ok_or("the restored file is neither the old one nor the new one".into())
    }

    fn judge(&self, tree: &Tree) -> Result<Standing, String> {
        let out = self.restored(tree, 0, self.outs.len() - 1)?;
        let Some(file) = tree.file(BOOK) else {
            return Ok(Standing { store: 0, out });
        };
        let store = *self
            .books
            .get(&key_of(&sealed::open(file)))
            .ok_or("the book is neither the old one nor the new one")?;
        self.holds(tree, store)?;
        Ok(Standing { store, out })
    }

    /// Complains unless the store is sound and every read gives what this standing says.
    pub fn holds(&self, tree: &Tree, store: usize) -> Result<(), String> {
        let there = |name| tree.file(name).ok_or(format!("{name} is missing"));
        let (file, pool, lock) = (there(BOOK)?, there(POOL)?, there(LOCK)?);
        let id = id_in(lock).ok_or("the file lock isn't whole")?;
        let parts = sealed::open(file);
        is_sealed(&parts, &id)?;
        reads(parts.book, pool, &self.histories[store])?;
        if sorted(&parts.lengths) != self.lengths(store) {
            return Err(format!("lengths are noted as {:?}", parts.lengths));
        }
        let (day, wanted) = (Book::over(parts.book).header(Header::Day), self.days[store]);
        if day != wanted {
            return Err(format!("the book's day is {day}, not {wanted}"));
        }
        Ok(())
    }

    /// The lengths of all images that the store got.
    fn lengths(&self, store: usize) -> Vec<Length> {
        let images = self.images[store].iter();
        let length = |(&(volume, number), bytes): (&(u16, u16), &Vec<u8>)| Length {
            volume,
            number,
            bytes: bytes.len() as u32,
        };
        images.map(length).collect()
    }

    /// The backups that are kept there, each with the image that was backed up.
    pub fn kept(&self, store: usize) -> Vec<(u16, u16, &[u8])> {
        let history = &self.histories[store];
        let images = self.images[store].iter();
        images
            .filter(|((volume, number), _)| is_kept(history, *volume, *number))
            .map(|((volume, number), bytes)| (*volume, *number, &bytes[..]))
            .collect()
    }

    /// The blocks of a volume as of a backup, up to the last that was ever sent.
    pub fn blocks(&self, store: usize, volume: u16, number: u16) -> Vec<u8> {
        let (mut blocks, mut sent) = (Vec::new(), 0);
        for lbn in 0..SIZES.lbns {
            match self.histories[store].read(volume, number, lbn) {
                Ok(block) => {
                    blocks.extend_from_slice(block);
                    sent = blocks.len();
                }
                Err(_) => blocks.resize(blocks.len() + BLOCK_BYTES, 0),
            }
        }
        blocks.truncate(sent);
        blocks
    }

    pub fn story(&self) -> &'a Story {
        self.story
    }
}

fn key_of(parts: &Parts) -> (Vec<u8>, Vec<Length>) {
    (parts.book.to_vec(), sorted(&parts.lengths))
}

fn sorted(lengths: &[Length]) -> Vec<Length> {
    let mut lengths = lengths.to_vec();
    lengths.sort_unstable();
    lengths
}

fn is_kept(history: &History, volume: u16, number: u16) -> bool {
    matches!(
        history.read(volume, number, 0),
        Ok(_) | Err(Refusal::Unmapped)
    )
}

fn is_sealed(parts: &Parts, id: &[u8]) -> Result<(), String> {
    match &parts.seal {
        None => Err("the book has no seal".into()),
        Some(seal) if !seal.fits => Err("the book doesn't fit its digest".into()),
        Some(seal) if seal.id != id => Err("the book is sealed for another store".into()),
        Some(_) => Ok(()),
    }
}

/// Complains unless the book is sound and every read gives what the history says.
fn reads(book: &[u8], pool: &[u8], history: &History) -> Result<(), String> {
    match store::audit(book) {
        Ok(true) => {}
        Ok(false) => return Err("the audit says no".into()),
        Err(refusal) => return Err(format!("the book is refused by {}", refusal.number())),
    }
    for volume in 0..VOLUMES {
        for number in 0..=history.backups(volume) as u16 + 1 {
            for lbn in 0..SIZES.lbns {
                let found = store::read(book, pool, volume, number, lbn);
                let wanted = history.read(volume, number, lbn).map(|block| &block[..]);
                if found != wanted {
                    return Err(format!(
                        "volume {volume} number {number} LBN {lbn} reads {}, not {}",
                        shown(found),
                        shown(wanted)
                    ));
                }
            }
        }
    }
    Ok(())
}

fn shown(answer: Result<&[u8], Refusal>) -> String {
    match answer {
        Ok(bytes) => format!("{:02x?}..", &bytes[..4]),
        Err(refusal) => format!("refused {}", refusal.number()),
    }
}

/// The identity in the file lock, if that is whole: the version, the date of day 0 as the story
/// gives it, an identity by chance, and the digest of these three lines.
fn id_in(lock: &[u8]) -> Option<Vec<u8>> {
    let lock = std::str::from_utf8(lock).ok()?;
    let rest = lock.strip_prefix("aspenbox 1\nday-zero 2026-01-01\nstore ")?;
    let (id, rest) = rest.split_once('\n')?;
    let digest = rest.strip_prefix("digest ")?.strip_suffix('\n')?;
    let lines = &lock[..lock.len() - rest.len()];
    let whole = id.len() == 32 && unhex(digest)? == sha256(lines.as_bytes());
    whole.then(|| unhex(id))?
}

fn unhex(text: &str) -> Option<Vec<u8>> {
    let pair = |at: usize| u8::from_str_radix(text.get(at..at + 2)?, 16).ok();
    (0..text.len()).step_by(2).map(pair).collect()
}
