//! What the calls that were compared came upon, each with a count: a shape that never came is a
//! hole in the tests.

mod afresh;
mod alike;
mod audit;
mod backup;
mod buffers;
mod convert;
mod days;
mod lists;
mod others;
mod play;
mod replaced;
mod restore;
mod retire;
mod views;
mod writer;

pub use play::numbers as listed_numbers;

use std::collections::BTreeMap;

use reference::call::Call;
use reference::change_list::RUN_MAX;
use reference::store::Way;
use reference::view::View;

use crate::request::{call_name, Converting, Playing, Request, Restoring, Viewed};
use crate::seen::Seen;

/// The most blocks of a run.
const MOST: usize = RUN_MAX as usize;

/// The shapes that a call may have, each with whether it has it.
type Shape = (&'static str, bool);

/// A call and a shape, with a number where there are several of a kind.
type Key = (&'static str, &'static str, Option<usize>);

#[derive(Default)]
pub struct Shapes(BTreeMap<Key, u64>);

fn in_words((call, name, number): &Key) -> String {
    match number {
        Some(number) => format!("{call}: {name} {number}"),
        None => format!("{call}: {name}"),
    }
}

impl Shapes {
    fn count(&mut self, call: &'static str, shapes: impl IntoIterator<Item = Shape>) {
        for (name, has) in shapes {
            *self.0.entry((call, name, None)).or_default() += u64::from(has);
        }
    }

    /// Shapes that come for each number from 0 on.
    fn count_numbered(&mut self, call: &'static str, (name, came): (&'static str, &[bool])) {
        for (number, has) in came.iter().enumerate() {
            *self.0.entry((call, name, Some(number))).or_default() += u64::from(*has);
        }
    }

    /// Counts the shapes of a call that both sides agreed on.
    pub fn note(&mut self, request: &Request, seen: &Seen) {
        match *request {
            Request::Format { sizes, .. } if seen.number == 0 => {
                self.count("format", others::format(sizes));
            }
            Request::Count { .. } if seen.number == 0 => {
                self.count("count", others::count(seen));
            }
            Request::Restore(restoring) => self.note_restore(restoring, seen),
            Request::Play(playing) => self.note_play(playing, seen),
            Request::View(viewed) => self.note_view(request.name(), viewed, seen),
            Request::Convert(converting) => {
                self.note_convert(request.name(), converting, seen);
            }
            Request::WriteList(input) => {
                let written = writer::Written::new(input, seen);
                self.count("write_list", written.shapes());
                self.count("write_list", written.piece_shapes());
            }
            Request::Call { stored, call } => {
                let buffers = buffers::Buffers::new(stored, call);
                self.count("buffers", buffers.shapes(seen.number));
                // Past these numbers book, buffers and volume are as the call asks.
                match seen.number {
                    1..=4 => {}
                    5 if !matches!(call, Call::Enrol { .. }) => {
                        self.note_volume(&stored.book, call);
                    }
                    _ => self.note_call(&stored.book, &stored.pool, call, seen),
                }
            }
            _ => {}
        }
    }

    fn note_convert(&mut self, name: &'static str, converting: &Converting, seen: &Seen) {
        let converted = convert::Converted::new(converting, seen.number);
        self.count(name, converted.shapes());
        match converting.way {
            Way::OneToTwo => self.count(name, converted.longer_shapes()),
            Way::TwoToOne => {
                self.count(name, converted.shorter_shapes());
                self.count(name, converted.retired_shapes());
            }
            Way::TwoToThree => self.note_afresh(&converted, seen),
        }
    }

    fn note_afresh(&mut self, converted: &convert::Converted, seen: &Seen) {
        self.count("convert_2_3", converted.other_layout_shapes());
        self.count("convert_2_3", converted.retired_shapes());
        if seen.number == 0 {
            let afresh = afresh::Afresh::new(converted.book, seen.content(1));
            self.count("convert_2_3", afresh.expiry_shapes());
            self.count("convert_2_3", afresh.journal_shapes());
            self.count("convert_2_3", afresh.kept_shapes());
        }
    }

    fn note_restore(&mut self, restoring: &Restoring, seen: &Seen) {
        self.count("restore", restore::refused_early(restoring, seen.number));
        if !matches!(seen.number, 1..=5) {
            let restored = restore::Restored::new(restoring, seen.number);
            self.count("restore", restored.run_shapes());
            self.count("restore", restored.found_shapes());
            self.count("restore", restored.day_shapes());
            self.count("restore", restored.retired_shapes());
            self.count("restore", restored.refused_shapes());
            self.count("restore", restored.room_shapes());
            self.count("restore", restored.unmapped_shapes());
        }
    }

    fn note_view(&mut self, name: &'static str, viewed: &Viewed, seen: &Seen) {
        if viewed.view.has_output() {
            self.count(name, views::output(viewed, seen.number));
        }
        if let View::Volume { volume } | View::Backups { volume } | View::Cells { volume } =
            viewed.view
        {
            self.count(name, views::volume(volume, seen.number));
        }
        if seen.number == 0 {
            self.count(name, views::shown(viewed, seen));
            self.count(name, views::retired(viewed, seen));
        }
    }

    fn note_play(&mut self, playing: &Playing, seen: &Seen) {
        match seen.number {
            19 => return self.count("play", play::refused(playing)),
            0 => {
                self.count("play", play::played(playing, seen));
                self.count("play", play::told(playing, seen));
            }
            _ => {}
        }
        self.count("play", play::room(playing, seen.number));
    }

    /// Of a call that was refused by 5.
    fn note_volume(&mut self, book: &[u8], call: &Call) {
        if let Call::Backup { volume, .. } | Call::Retire { volume, .. } = call {
            self.count(call_name(call), retire::refused_volume(book, *volume));
        }
    }

    fn note_call(&mut self, book: &[u8], pool: &[u8], call: &Call, seen: &Seen) {
        match call {
            Call::Backup { volume, day, list } => {
                let backup = backup::Backup::new(book, (*volume, *day), list, seen);
                self.count("backup", backup.change_shapes());
                self.count("backup", backup.count_shapes());
                self.count("backup", backup.accepted_shapes());
                self.count("backup", backup.replaced().expiry_shapes());
                self.count("backup", backup.replaced().previous_shapes());
                self.count("backup", backup.list_shapes());
                self.count("backup", backup.refused_shapes(pool));
                self.note_alike(&backup.alike());
            }
            Call::Retire { volume, day } => {
                self.note_retire(&retire::Retired::new(book, (*volume, *day), seen));
            }
            Call::Collect { day } => {
                self.count("collect", others::Collect::new(book, *day, seen).shapes());
            }
            Call::Read {
                volume,
                number,
                lbn,
            } => {
                let read = others::Read::new(book, *volume, *number, *lbn);
                self.count("read", read.shapes(seen.number));
                self.count("read", read.day_shapes(seen.number));
                self.count("read", read.retired_shapes(seen.number));
            }
            Call::Enrol { volume, retention } => {
                let shapes = others::enrol(book, *volume, *retention, seen.number);
                self.count("enrol", shapes);
            }
            Call::Audit => self.note_audit(book),
            Call::Restore(_) => unreachable!("a restore is sent with its output"),
        }
    }

    fn note_audit(&mut self, book: &[u8]) {
        self.count("audit", audit::shapes(book));
        let retired = audit::Retired::new(book);
        self.count("audit", retired.yes_shapes());
        self.count("audit", retired.no_shapes());
    }

    fn note_retire(&mut self, retired: &retire::Retired) {
        self.count("retire", retired.cell_shapes());
        self.count("retire", retired.replaced().expiry_shapes());
        self.count("retire", retired.replaced().previous_shapes());
        self.count("retire", retired.newest_shapes());
        self.count("retire", retired.accepted_shapes());
        self.count("retire", retired.refused_shapes());
    }

    fn note_alike(&mut self, alike: &alike::Alike) {
        self.count("backup", alike.shapes());
        for numbered in alike.numbered_shapes() {
            self.count_numbered("backup", numbered);
        }
    }

    pub fn merge(&mut self, other: &Shapes) {
        for (shape, times) in &other.0 {
            *self.0.entry(*shape).or_default() += times;
        }
    }

    /// Prints how often each came; gives those that never did.
    pub fn report(&self) -> Vec<String> {
        for (shape, times) in &self.0 {
            println!("{times:>9}  {}", in_words(shape));
        }
        let missing = self.0.iter().filter(|(_, times)| **times == 0);
        missing.map(|(shape, _)| in_words(shape)).collect()
    }
}
