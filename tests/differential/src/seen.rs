//! What a caller sees after a call, and the comparison of both sides.

use crate::guarded::Guarded;

pub const BOOK: &str = "the book";
pub const POOL: &str = "the pool";
/// The one buffer whose bytes a call may leave as it likes.
pub const SPARE: &str = "the spare";

pub struct Seen {
    pub number: u16,
    /// The answers in order, as far as they were written.
    pub answers: Vec<(&'static str, Option<u32>)>,
    /// The buffers in order.
    pub buffers: Vec<(&'static str, Guarded)>,
}

impl Seen {
    pub fn content(&self, buffer: usize) -> &[u8] {
        self.buffers[buffer].1.content()
    }

    /// An answer of an accepted call.
    pub fn answer(&self, index: usize) -> u32 {
        self.answers[index].1.expect("an accepted call answers")
    }

    /// No byte outside the buffers was written.
    fn check_guards(&self) -> Result<(), String> {
        for (name, buffer) in &self.buffers {
            if let Some(at) = buffer.broken_at() {
                return Err(format!("byte {at} outside {name} was written"));
            }
        }
        Ok(())
    }

    /// A refused call writes no answer, and no buffer but the spare.
    fn check_unchanged(&self, sent: &[(&str, &[u8])]) -> Result<(), String> {
        for (name, answer) in &self.answers {
            equal(&format!("{name} of a refused call"), *answer, None)?;
        }
        for ((name, buffer), (_, content)) in self.buffers.iter().zip(sent) {
            if *name != SPARE {
                let name = format!("{name} of a refused call");
                equal_bytes(&name, buffer.content(), content)?;
            }
        }
        Ok(())
    }
}

/// Both sides made the same of the buffers that were sent.
pub fn compare(sent: &[(&str, &[u8])], archive: &Seen, reference: &Seen) -> Result<(), String> {
    equal("the number", archive.number, reference.number)?;
    for ((name, ours), (_, expected)) in archive.answers.iter().zip(&reference.answers) {
        equal(name, *ours, *expected)?;
    }
    for ((name, ours), (_, expected)) in archive.buffers.iter().zip(&reference.buffers) {
        if *name != SPARE {
            equal_bytes(name, ours.content(), expected.content())?;
        }
    }
    archive.check_guards()?;
    if archive.number == 0 {
        return Ok(());
    }
    archive.check_unchanged(sent)
}

/// `Ok` if the two are equal, else both.
pub fn equal<T: PartialEq + std::fmt::Debug>(
    what: &str,
    ours: T,
    expected: T,
) -> Result<(), String> {
    if ours == expected {
        Ok(())
    } else {
        Err(format!("{what} is {ours:?}, expected {expected:?}"))
    }
}

/// The same of buffers, with the first byte that differs.
pub fn equal_bytes(what: &str, ours: &[u8], expected: &[u8]) -> Result<(), String> {
    if ours == expected {
        return Ok(());
    }
    let mut bytes = ours.iter().zip(expected);
    let at = bytes.position(|(ours, expected)| ours != expected);
    let at = at.expect("buffers keep their length");
    Err(format!(
        "{what} has {} at byte {at}, expected {}",
        ours[at], expected[at]
    ))
}
