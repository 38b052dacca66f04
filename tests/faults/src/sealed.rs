//! The store's file `book`: the book of the box, behind it the lengths of the images, and a seal
//! over all of it. See host/seal.h.

use crate::digest::sha256;

const MAGIC: &[u8] = b"aspnseal";
const LENGTH_BYTES: usize = 8;
const ID_BYTES: usize = 16;
const DIGEST_BYTES: usize = 32;
pub const SEAL_BYTES: usize = ID_BYTES + 4 + 4 + MAGIC.len() + DIGEST_BYTES;

/// How long the image of a backup was.
#[derive(Clone, Copy, Debug, PartialEq, Eq, PartialOrd, Ord, Hash)]
pub struct Length {
    pub volume: u16,
    pub number: u16,
    pub bytes: u32,
}

pub struct Seal<'a> {
    /// The store's identity.
    pub id: &'a [u8],
    /// Whether the digest is that of all before it.
    pub fits: bool,
}

pub struct Parts<'a> {
    /// The book of the box alone.
    pub book: &'a [u8],
    pub lengths: Vec<Length>,
    pub seal: Option<Seal<'a>>,
}

/// Takes the file apart. Without a seal that fits its length it is a book alone.
pub fn open(file: &[u8]) -> Parts<'_> {
    sealed(file).unwrap_or(Parts {
        book: file,
        lengths: Vec::new(),
        seal: None,
    })
}

fn sealed(file: &[u8]) -> Option<Parts<'_>> {
    let (before, seal) = file.split_at_checked(file.len().checked_sub(SEAL_BYTES)?)?;
    let (id, rest) = seal.split_at(ID_BYTES);
    let (book, count) = (u32_in(rest) as usize, u32_in(&rest[4..]) as usize);
    let (magic, digest) = rest[8..].split_at(MAGIC.len());
    if magic != MAGIC || book + LENGTH_BYTES * count != before.len() {
        return None;
    }
    let (book, lengths) = before.split_at(book);
    Some(Parts {
        book,
        lengths: lengths.chunks(LENGTH_BYTES).map(length_in).collect(),
        seal: Some(Seal {
            id,
            fits: sha256(&file[..file.len() - DIGEST_BYTES]) == digest,
        }),
    })
}

fn length_in(bytes: &[u8]) -> Length {
    let u16_at = |at: usize| u16::from_le_bytes([bytes[at], bytes[at + 1]]);
    Length {
        volume: u16_at(0),
        number: u16_at(2),
        bytes: u32_in(&bytes[4..]),
    }
}

fn u32_in(bytes: &[u8]) -> u32 {
    u32::from_le_bytes(bytes[..4].try_into().expect("four bytes"))
}

/// The file of this book.
pub fn make(book: &[u8], lengths: &[Length], id: &[u8]) -> Vec<u8> {
    let mut file = book.to_vec();
    for length in lengths {
        file.extend(length.volume.to_le_bytes());
        file.extend(length.number.to_le_bytes());
        file.extend(length.bytes.to_le_bytes());
    }
    file.extend(id);
    file.extend((book.len() as u32).to_le_bytes());
    file.extend((lengths.len() as u32).to_le_bytes());
    file.extend(MAGIC);
    file.extend(sha256(&file));
    file
}
