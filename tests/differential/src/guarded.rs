//! Memory that is lent to a call, with guards on both sides.

use reference::prng::Prng;

const GUARD: usize = 64;

/// A byte buffer at any alignment between guard bytes.
pub struct Guarded {
    memory: Vec<u8>,
    start: usize,
    length: usize,
}

fn guard_byte(at: usize) -> u8 {
    (at * 37 + 11) as u8
}

impl Guarded {
    pub fn new(prng: &mut Prng, content: &[u8]) -> Self {
        let start = GUARD + prng.index(8);
        let length = content.len();
        let mut memory = Vec::with_capacity(start + length + GUARD);
        memory.extend((0..start).map(guard_byte));
        memory.extend_from_slice(content);
        memory.extend((start + length..start + length + GUARD).map(guard_byte));
        Guarded {
            memory,
            start,
            length,
        }
    }

    pub fn content(&self) -> &[u8] {
        &self.memory[self.start..self.start + self.length]
    }

    pub fn mut_pointer(&mut self) -> *mut u8 {
        self.memory[self.start..].as_mut_ptr()
    }

    pub fn length(&self) -> usize {
        self.length
    }

    /// Where a guard byte was written, counted from the buffer's start.
    pub fn broken_at(&self) -> Option<isize> {
        let end = self.start + self.length;
        let mut outside = (0..self.start).chain(end..self.memory.len());
        let broken = outside.find(|&at| self.memory[at] != guard_byte(at))?;
        Some(broken as isize - self.start as isize)
    }
}

/// A number that a function answers through a pointer, between two more.
pub struct Answered<T> {
    cells: [T; 3],
    untouched: T,
}

impl Answered<u16> {
    pub fn new() -> Self {
        Answered::over(0xFEED)
    }
}

impl Answered<u32> {
    pub fn wide() -> Self {
        Answered::over(0xDEAD_BEEF)
    }
}

impl<T: Copy + PartialEq + Into<u32>> Answered<T> {
    /// `untouched` is a value that no answer has.
    fn over(untouched: T) -> Self {
        Answered {
            cells: [untouched; 3],
            untouched,
        }
    }

    pub fn mut_pointer(&mut self) -> *mut T {
        &mut self.cells[1]
    }

    /// The answer, or none if it wasn't written; fails if a number beside it was.
    pub fn value(&self) -> Result<Option<u32>, String> {
        let [before, value, after] = self.cells;
        if before != self.untouched || after != self.untouched {
            return Err("a number beside an answer was written".into());
        }
        Ok((value != self.untouched).then(|| value.into()))
    }
}
