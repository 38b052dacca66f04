//! A call with all that is handed over, and the sending of it to one side.

use reference::call::{Call, Stored};
use reference::layout::Sizes;
use reference::prng::Prng;
use reference::store::{Run, Way};
use reference::view::View;

use crate::interface::Interface;
use crate::lent::{Lent, LENGTH, PLACE, REFERENCES, WRITTEN};
use crate::seen::{Seen, BOOK, POOL, SPARE};

/// The inputs of the aid's writer.
pub struct WriteList {
    pub lbns: u16,
    pub marks: Vec<u8>,
    pub prints: Vec<u8>,
    pub image: Vec<u8>,
    pub output: Vec<u8>,
}

/// A call that shows a book, with its output; one without rows has none.
pub struct Viewed<'a> {
    pub book: &'a [u8],
    pub view: View,
    pub output: Vec<u8>,
}

/// A run of blocks to restore, with the output that it goes to.
pub struct Restoring<'a> {
    pub stored: &'a Stored,
    pub run: Run,
    pub output: Vec<u8>,
}

/// A book to convert, with the output that it goes to.
pub struct Converting<'a> {
    pub book: &'a [u8],
    pub way: Way,
    pub output: Vec<u8>,
}

/// A list of calls in bytes on a box, with room for its answers.
pub struct Playing<'a> {
    pub stored: &'a Stored,
    pub calls: &'a [u8],
    pub answers: Vec<u8>,
}

/// `Call` is any call of lists but a restore, which has an output.
#[derive(Clone, Copy)]
pub enum Request<'a> {
    Format { book: &'a [u8], sizes: Sizes },
    Form { book: &'a [u8] },
    Count { book: &'a [u8] },
    View(&'a Viewed<'a>),
    Call { stored: &'a Stored, call: &'a Call },
    Restore(&'a Restoring<'a>),
    Play(&'a Playing<'a>),
    WriteList(&'a WriteList),
    Convert(&'a Converting<'a>),
}

/// The names of the calls, in the order of the coverage table.
pub const NAMES: [&str; 21] = [
    "format",
    "enrol",
    "backup",
    "retire",
    "collect",
    "read",
    "restore",
    "audit",
    "form",
    "count",
    "sizes",
    "used",
    "volume",
    "backups",
    "cells",
    "blocks",
    "play",
    "write_list",
    "convert_1_2",
    "convert_2_1",
    "convert_2_3",
];

pub fn call_name(call: &Call) -> &'static str {
    match call {
        Call::Enrol { .. } => "enrol",
        Call::Backup { .. } => "backup",
        Call::Retire { .. } => "retire",
        Call::Collect { .. } => "collect",
        Call::Read { .. } => "read",
        Call::Restore(_) => "restore",
        Call::Audit => "audit",
    }
}

type Sent<'a> = Vec<(&'static str, &'a [u8])>;

/// The buffers of such a call.
fn call_buffers<'a>(stored: &'a Stored, call: &'a Call) -> Sent<'a> {
    let mut buffers: Sent = vec![(BOOK, &stored.book)];
    if matches!(call, Call::Read { .. } | Call::Backup { .. }) {
        buffers.push((POOL, &stored.pool));
    }
    if matches!(call, Call::Backup { .. } | Call::Retire { .. }) {
        buffers.push((SPARE, &stored.spare));
    }
    if let Call::Backup { list, .. } = call {
        buffers.push(("the list", list));
    }
    buffers
}

impl<'a> Request<'a> {
    pub fn name(&self) -> &'static str {
        match self {
            Request::Format { .. } => "format",
            Request::Form { .. } => "form",
            Request::Count { .. } => "count",
            Request::View(viewed) => match viewed.view {
                View::Sizes => "sizes",
                View::Used => "used",
                View::Volume { .. } => "volume",
                View::Backups { .. } => "backups",
                View::Cells { .. } => "cells",
                View::Blocks => "blocks",
            },
            Request::Call { call, .. } => call_name(call),
            Request::Restore(_) => "restore",
            Request::Play(_) => "play",
            Request::WriteList(_) => "write_list",
            Request::Convert(converting) => match converting.way {
                Way::OneToTwo => "convert_1_2",
                Way::TwoToOne => "convert_2_1",
                Way::TwoToThree => "convert_2_3",
            },
        }
    }

    /// The buffers that the call takes, in order.
    pub fn buffers(&self) -> Sent<'a> {
        match *self {
            Request::Format { book, .. } | Request::Form { book } | Request::Count { book } => {
                vec![(BOOK, book)]
            }
            Request::View(viewed) => {
                let mut buffers: Sent = vec![(BOOK, viewed.book)];
                if viewed.view.has_output() {
                    buffers.push(("the output", &viewed.output));
                }
                buffers
            }
            Request::Call { stored, call } => call_buffers(stored, call),
            Request::Restore(restoring) => vec![
                (BOOK, &restoring.stored.book),
                (POOL, &restoring.stored.pool),
                ("the output", &restoring.output),
            ],
            Request::Play(playing) => vec![
                (BOOK, &playing.stored.book),
                (POOL, &playing.stored.pool),
                (SPARE, &playing.stored.spare),
                ("the calls", playing.calls),
                ("the answers", &playing.answers),
            ],
            Request::WriteList(input) => vec![
                ("the marks", &input.marks),
                ("the fingerprints", &input.prints),
                ("the image", &input.image),
                ("the output", &input.output),
            ],
            Request::Convert(converting) => {
                vec![(BOOK, converting.book), ("the output", &converting.output)]
            }
        }
    }

    /// Lends copies of the buffers to one side's function.
    pub fn send(&self, prng: &mut Prng, side: &Interface) -> Result<Seen, String> {
        let mut lent = Lent::new(prng, &self.buffers());
        let number = match *self {
            Request::Format { sizes, .. } => lent.format(side, sizes),
            Request::Form { .. } => lent.form(side),
            Request::Count { .. } => lent.count(side),
            Request::View(viewed) => lent.view(side, viewed.view),
            Request::Call { call, .. } => lent.call(side, call),
            Request::Restore(restoring) => lent.restore(side, restoring.run),
            Request::Play(_) => lent.play(side),
            Request::WriteList(input) => lent.write_list(side, input.lbns),
            Request::Convert(converting) => lent.convert(side, converting.way),
        };
        lent.seen(number, self.answers())
    }

    /// What the call answers, in order.
    fn answers(&self) -> &'static [&'static str] {
        match self.name() {
            "backup" => &["the backup's number", "taken", "touched"],
            "retire" => &["cells"],
            "collect" => &["freed"],
            "audit" => &["the audit's answer"],
            "read" => &[PLACE],
            "count" => &["blocks", "held", "waiting", REFERENCES],
            "sizes" => &["blocks", "cells", "slots", "records"],
            "used" => &["slots used", "records used", "the day"],
            "volume" => &["the retention", "the backups", "the day retired"],
            "backups" => &["the count"],
            "play" => &[WRITTEN],
            "write_list" => &[LENGTH],
            _ => &[],
        }
    }
}
