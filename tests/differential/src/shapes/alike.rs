//! Shapes of held fingerprints that are alike: how far those of other blocks agree with one that is looked for.

use reference::change_list::ChangeList;
use reference::layout::{Book, Fingerprint, Pbn, Record, FINGERPRINT_BYTES, HELD};

use super::Shape;
use crate::bucket::bucket_of;

type View<'a> = Book<&'a [u8]>;

/// Larger pools would take long.
const MOST_BLOCKS: u16 = 64;

/// In one bucket no two fingerprints differ in the first byte alone.
const MOST_IN_BUCKET: usize = FINGERPRINT_BYTES - 2;

/// From the far end, from the near end, and from the far end within a bucket.
const WAYS: usize = 3;

/// How many bytes agree up to the first that differs, each way.
type Agreeing = [Option<usize>; WAYS];

struct Held {
    pbn: Pbn,
    print: Fingerprint,
    bucket: u32,
}

impl Held {
    fn new(pbn: Pbn, print: Fingerprint) -> Self {
        let bucket = bucket_of(&print);
        Held { pbn, print, bucket }
    }

    fn agreeing(&self, sent: &Held) -> Agreeing {
        let pairs = self.print.iter().zip(&sent.print);
        let far = pairs.clone().rev().take_while(|(a, b)| a == b).count();
        let near = pairs.take_while(|(a, b)| a == b).count();
        let in_bucket = self.bucket == sent.bucket;
        [Some(far), Some(near), in_bucket.then_some(far)]
    }
}

/// The held blocks of a book, from the lowest up; none of a large one.
fn held_in(book: &View) -> Vec<Held> {
    let looked_at = book.sizes().blocks <= MOST_BLOCKS;
    let blocks = book.pbns().filter(|_| looked_at);
    let entries = blocks.map(|pbn| (pbn, book.entry(pbn)));
    let held = entries.filter(|(_, entry)| entry.state == HELD);
    held.map(|(pbn, entry)| Held::new(pbn, entry.fingerprint))
        .collect()
}

/// Each way, whether a number of agreeing bytes came.
#[derive(Default)]
struct Came([[bool; FINGERPRINT_BYTES]; WAYS]);

impl Came {
    fn note(&mut self, agreeing: Agreeing) {
        for (came, bytes) in self.0.iter_mut().zip(agreeing) {
            if let Some(bytes) = bytes {
                came[bytes] = true;
            }
        }
    }
}

/// Of the changes of an accepted backup.
#[derive(Default)]
pub struct Alike {
    /// A block was found, and a lower one agrees in so many bytes.
    found: Came,
    /// None was found, and the closest agrees in so many.
    missed: Came,
    zero_found: bool,
    zero_taken: bool,
    lower_of_two: bool,
    taken_before: bool,
}

impl Alike {
    pub fn new(before: &View, list: Option<&ChangeList>, added: &[Record]) -> Self {
        let mut alike = Alike::default();
        let Some(list) = list.filter(|_| before.sizes().blocks <= MOST_BLOCKS) else {
            return alike;
        };
        let mut held = held_in(before);
        for (change, record) in list.changes().zip(added) {
            let sent = Held::new(record.after, *change.fingerprint);
            if held.iter().any(|block| block.pbn == sent.pbn) {
                alike.note_found(before, &held, &sent);
            } else {
                alike.note_missed(&held, &sent);
                held.push(sent);
            }
        }
        alike
    }

    fn note_found(&mut self, before: &View, held: &[Held], sent: &Held) {
        let lower = held.iter().filter(|block| block.pbn < sent.pbn);
        let lower: Vec<&Held> = lower.collect();
        let mut upper = held.iter().filter(|block| block.pbn > sent.pbn);
        let past_one = lower.iter().any(|block| block.bucket == sent.bucket);
        self.zero_found |= is_zero(sent) && lower.len() < sent.pbn.index();
        self.lower_of_two |= past_one && upper.any(|block| block.print == sent.print);
        self.taken_before |= past_one && before.entry(sent.pbn).state != HELD;
        for block in lower {
            self.found.note(block.agreeing(sent));
        }
    }

    fn note_missed(&mut self, held: &[Held], sent: &Held) {
        self.zero_taken |= is_zero(sent);
        let agreeing = held.iter().map(|block| block.agreeing(sent));
        let closest = agreeing.reduce(|a, b| std::array::from_fn(|way| a[way].max(b[way])));
        if let Some(closest) = closest {
            self.missed.note(closest);
        }
    }

    /// Each for the numbers of bytes that agree, from 0 on.
    pub fn numbered_shapes(&self) -> [(&'static str, &[bool]); 2 * WAYS] {
        let [far, near, in_bucket] = &self.found.0;
        let [missed_far, missed_near, missed_in_bucket] = &self.missed.0;
        [
            ("found past a block alike from the far end in", far),
            ("found past a block alike from the near end in", near),
            (
                "found past a block of its bucket alike from the far end in",
                &in_bucket[..=MOST_IN_BUCKET],
            ),
            (
                "not found, the closest block alike from the far end in",
                missed_far,
            ),
            (
                "not found, the closest block alike from the near end in",
                missed_near,
            ),
            (
                "not found, the closest of its bucket alike from the far end in",
                &missed_in_bucket[..=MOST_IN_BUCKET],
            ),
        ]
    }

    pub fn shapes(&self) -> [Shape; 4] {
        [
            (
                "the zero fingerprint found above a free block",
                self.zero_found,
            ),
            ("a block taken for the zero fingerprint", self.zero_taken),
            (
                "the lower of two equal ones found past one of its bucket",
                self.lower_of_two,
            ),
            (
                "found past one of its bucket, taken by the same list",
                self.taken_before,
            ),
        ]
    }
}

fn is_zero(sent: &Held) -> bool {
    sent.print == [0; FINGERPRINT_BYTES]
}

/// Two held blocks have fingerprints that differ and one bucket.
pub fn share_a_bucket(book: &View) -> bool {
    let held = held_in(book);
    held.iter().enumerate().any(|(index, one)| {
        let mut lower = held[..index].iter();
        lower.any(|other| one.bucket == other.bucket && one.print != other.print)
    })
}

/// Two held blocks have one fingerprint, and another of their bucket is held between.
pub fn equal_around_another(book: &View) -> bool {
    let held = held_in(book);
    held.iter().enumerate().any(|(index, between)| {
        let (mut lower, upper) = (held[..index].iter(), &held[index..]);
        lower.any(|one| {
            let differs = one.bucket == between.bucket && one.print != between.print;
            differs && upper.iter().any(|other| other.print == one.print)
        })
    })
}
