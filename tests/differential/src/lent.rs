//! What one call is lent: guarded copies of its buffers, and numbers for its answers.

use reference::call::Call;
use reference::layout::Sizes;
use reference::prng::Prng;
use reference::store::{Run, Way};
use reference::view::View;

use crate::guarded::{Answered, Guarded};
use crate::interface::Interface;
use crate::seen::Seen;

/// The answers of four bytes.
pub const PLACE: &str = "the block's place";
pub const LENGTH: &str = "the list's length";
pub const REFERENCES: &str = "references";
pub const WRITTEN: &str = "the answers' length";

pub struct Lent {
    buffers: Vec<(&'static str, Guarded)>,
    narrow: [Answered<u16>; 4],
    wide: Answered<u32>,
}

impl Lent {
    pub fn new(prng: &mut Prng, buffers: &[(&'static str, &[u8])]) -> Self {
        let buffers = buffers.iter();
        Lent {
            buffers: buffers
                .map(|(name, content)| (*name, Guarded::new(prng, content)))
                .collect(),
            narrow: std::array::from_fn(|_| Answered::new()),
            wide: Answered::wide(),
        }
    }

    fn part(&mut self, index: usize) -> (*mut u8, usize) {
        let buffer = &mut self.buffers[index].1;
        (buffer.mut_pointer(), buffer.length())
    }

    fn answer(&mut self, index: usize) -> *mut u16 {
        self.narrow[index].mut_pointer()
    }

    pub fn format(&mut self, side: &Interface, sizes: Sizes) -> u16 {
        let (book, length) = self.part(0);
        let (n, l) = (sizes.blocks, sizes.lbns);
        // SAFETY: the buffer is as long as said.
        unsafe { (side.format)(book, length, n, l, sizes.slots, sizes.records) }
    }

    pub fn form(&mut self, side: &Interface) -> u16 {
        let (book, length) = self.part(0);
        // SAFETY: the buffer is as long as said.
        unsafe { (side.form)(book, length) }
    }

    pub fn count(&mut self, side: &Interface) -> u16 {
        let (book, length) = self.part(0);
        let [blocks, held, waiting] = std::array::from_fn(|index| self.answer(index));
        let references = self.wide.mut_pointer();
        // SAFETY: the buffer is as long as said, and the answers are lent numbers.
        unsafe { (side.count)(book, length, blocks, held, waiting, references) }
    }

    pub fn view(&mut self, side: &Interface, view: View) -> u16 {
        if view.has_output() {
            return self.rows(side, view);
        }
        let (book, length) = self.part(0);
        let [a, b, c, d] = std::array::from_fn(|index| self.answer(index));
        // SAFETY: the buffer is as long as said, and the answers are lent numbers.
        unsafe {
            match view {
                View::Sizes => (side.sizes)(book, length, a, b, c, d),
                View::Used => (side.used)(book, length, a, b, c),
                View::Volume { volume } => (side.volume)(book, length, volume, a, b, c),
                _ => unreachable!("the others have outputs"),
            }
        }
    }

    fn rows(&mut self, side: &Interface, view: View) -> u16 {
        let [book, out] = std::array::from_fn(|index| self.part(index));
        let count = self.answer(0);
        // SAFETY: the buffers are apart and as long as said, and the answer is a lent number.
        unsafe {
            match view {
                View::Backups { volume } => {
                    (side.backups)(book.0, book.1, volume, out.0, out.1, count)
                }
                View::Cells { volume } => (side.cells)(book.0, book.1, volume, out.0, out.1),
                View::Blocks => (side.blocks)(book.0, book.1, out.0, out.1),
                _ => unreachable!("the others have no outputs"),
            }
        }
    }

    pub fn call(&mut self, side: &Interface, call: &Call) -> u16 {
        let (book, length) = self.part(0);
        // SAFETY: the buffer is as long as said, and the answer is a lent number.
        unsafe {
            match *call {
                Call::Enrol { volume, retention } => (side.enrol)(book, length, volume, retention),
                Call::Backup { volume, day, .. } => self.backup(side, volume, day),
                Call::Retire { volume, day } => self.retire(side, volume, day),
                Call::Collect { day } => (side.collect)(book, length, day, self.answer(0)),
                Call::Read {
                    volume,
                    number,
                    lbn,
                } => self.read(side, volume, number, lbn),
                Call::Restore(_) => unreachable!("a restore is sent with its output"),
                Call::Audit => (side.audit)(book, length, self.answer(0)),
            }
        }
    }

    fn backup(&mut self, side: &Interface, volume: u16, day: u16) -> u16 {
        let [book, pool, spare, list] = std::array::from_fn(|index| self.part(index));
        let [number, taken, touched] = std::array::from_fn(|index| self.answer(index));
        // SAFETY: the buffers are apart and as long as said, and the answers are lent numbers.
        unsafe {
            (side.backup)(
                book.0, book.1, pool.0, pool.1, spare.0, spare.1, volume, day, list.0, list.1,
                number, taken, touched,
            )
        }
    }

    fn retire(&mut self, side: &Interface, volume: u16, day: u16) -> u16 {
        let [book, spare] = std::array::from_fn(|index| self.part(index));
        let cells = self.answer(0);
        // SAFETY: the buffers are apart and as long as said, and `cells` is a lent number.
        unsafe { (side.retire)(book.0, book.1, spare.0, spare.1, volume, day, cells) }
    }

    fn read(&mut self, side: &Interface, volume: u16, number: u16, lbn: u16) -> u16 {
        let [book, pool] = std::array::from_fn(|index| self.part(index));
        let at = self.wide.mut_pointer();
        // SAFETY: the buffers are apart and as long as said, and `at` is a lent number.
        unsafe { (side.read)(book.0, book.1, pool.0, pool.1, volume, number, lbn, at) }
    }

    pub fn restore(&mut self, side: &Interface, run: Run) -> u16 {
        let [book, pool, out] = std::array::from_fn(|index| self.part(index));
        let (volume, number) = (run.volume, run.number);
        let (first, length) = (run.first, run.length);
        // SAFETY: the buffers are apart and as long as said.
        unsafe {
            (side.restore)(
                book.0, book.1, pool.0, pool.1, volume, number, first, length, out.0, out.1,
            )
        }
    }

    pub fn play(&mut self, side: &Interface) -> u16 {
        let [book, pool, spare, calls, answers] = std::array::from_fn(|index| self.part(index));
        let written = self.wide.mut_pointer();
        // SAFETY: the buffers are apart and as long as said, and `written` is a lent number.
        unsafe {
            (side.play)(
                book.0, book.1, pool.0, pool.1, spare.0, spare.1, calls.0, calls.1, answers.0,
                answers.1, written,
            )
        }
    }

    pub fn write_list(&mut self, side: &Interface, lbns: u16) -> u16 {
        let [marks, prints, image, list] = std::array::from_fn(|index| self.part(index));
        let written = self.wide.mut_pointer();
        // SAFETY: the buffers are apart and as long as said, and `written` is a lent number.
        unsafe {
            (side.write_list)(
                lbns, marks.0, marks.1, prints.0, prints.1, image.0, image.1, list.0, list.1,
                written,
            )
        }
    }

    pub fn convert(&mut self, side: &Interface, way: Way) -> u16 {
        let [book, out] = std::array::from_fn(|index| self.part(index));
        let convert = match way {
            Way::OneToTwo => side.convert_1_2,
            Way::TwoToOne => side.convert_2_1,
            Way::TwoToThree => side.convert_2_3,
        };
        // SAFETY: the buffers are apart and as long as said.
        unsafe { convert(book.0, book.1, out.0, out.1) }
    }

    /// What the caller sees; fails if a number beside an answer was written.
    pub fn seen(self, number: u16, answers: &[&'static str]) -> Result<Seen, String> {
        let wide = self.wide.value()?;
        let mut narrow = self.narrow.iter();
        let mut values = Vec::new();
        for name in answers {
            let value = match *name {
                PLACE | LENGTH | REFERENCES | WRITTEN => wide,
                _ => narrow.next().expect("four are lent").value()?,
            };
            values.push((*name, value));
        }
        Ok(Seen {
            number,
            answers: values,
            buffers: self.buffers,
        })
    }
}
