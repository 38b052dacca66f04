//! A folder to play in, with the program and the judge; and how a store goes on after a fault.

use std::fs;
use std::io;
use std::path::PathBuf;

use crate::fault::Fault;
use crate::judge::Judge;
use crate::program::{status, Ended, Program};
use crate::story::{images_of, letters, Command, Standing, Story, OUT, STORE};
use crate::tree::Tree;

/// How much of what a store holds is read through the program too.
#[derive(Clone, Copy, PartialEq, Eq)]
pub enum Reading {
    /// One kept backup, another one at each check.
    One,
    All,
}

pub struct Bench<'a> {
    pub program: &'a Program,
    pub judge: Judge<'a>,
    pub folder: PathBuf,
    pub reading: Reading,
    checks: usize,
}

/// A complaint about the file system below the tests.
pub fn or_complain<T>(result: io::Result<T>) -> Result<T, String> {
    result.map_err(|error| format!("the test itself can't go on: {error}"))
}

fn words(line: &str) -> Vec<String> {
    line.split(' ').map(String::from).collect()
}

impl<'a> Bench<'a> {
    pub fn new(program: &'a Program, story: &'a Story, folder: PathBuf, reading: Reading) -> Self {
        Bench {
            program,
            judge: Judge::new(story),
            folder,
            reading,
            checks: 0,
        }
    }

    pub fn load(&self) -> Result<Tree, String> {
        or_complain(Tree::load(&self.folder))
    }

    pub fn store(&self, tree: &Tree) -> Result<(), String> {
        or_complain(tree.store(&self.folder))
    }

    /// Puts the image that a command sends there.
    pub fn bring(&self, command: &Command) -> Result<(), String> {
        match command.file() {
            Some((name, bytes)) => or_complain(fs::write(self.folder.join(name), bytes)),
            None => Ok(()),
        }
    }

    /// Runs a command of a story.
    pub fn run(&self, command: &Command, fault: Option<Fault>) -> Result<Ended, String> {
        self.bring(command)?;
        or_complain(self.program.run(&self.folder, &command.words(), fault))
    }

    pub fn ask(&self, line: &str) -> Result<Ended, String> {
        self.ask_with(line, None)
    }

    pub fn ask_with(&self, line: &str, fault: Option<Fault>) -> Result<Ended, String> {
        or_complain(self.program.run(&self.folder, &words(line), fault))
    }

    /// The same without some of the standard streams, as a shell closes them.
    pub fn ask_without(
        &self,
        closed: &str,
        line: &str,
        fault: Option<Fault>,
    ) -> Result<Ended, String> {
        if closed.is_empty() {
            return self.ask_with(line, fault);
        }
        let words = words(line);
        let program = self.program;
        or_complain(program.run_without(closed, &self.folder, &words, fault))
    }

    /// Runs a command that has to end well.
    pub fn run_well(&self, command: &Command) -> Result<(), String> {
        let ended = self.run(command, None)?;
        if ended.status != Some(status::DONE) {
            return Err(format!("then the {command} ends with {}", ended.words()));
        }
        Ok(())
    }

    /// The program opens what is in the folder and reads what it should hold.
    pub fn opens(&mut self, standing: Standing) -> Result<(), String> {
        let audit = self.ask(&format!("audit {STORE}"))?;
        if standing.store == 0 {
            let clear = audit.status == Some(status::STORE) && audit.errors.contains("is no store");
            return if clear {
                Ok(())
            } else {
                Err(format!("without a book, audit ends with {}", audit.words()))
            };
        }
        if audit.status != Some(status::DONE) {
            return Err(format!("audit ends with {}", audit.words()));
        }
        let kept = self.judge.kept(standing.store);
        self.checks += 1;
        let turn = self.checks;
        let chosen = |at: usize| self.reading == Reading::All || at == turn % kept.len();
        for (at, (volume, number, bytes)) in kept.iter().enumerate() {
            if chosen(at) {
                self.restores(*volume, *number, bytes)?;
            }
        }
        Ok(())
    }

    pub fn restores(&self, volume: u16, number: u16, bytes: &[u8]) -> Result<(), String> {
        let restored = self.ask(&format!("restore {STORE} {volume} {number} -"))?;
        if restored.status != Some(status::DONE) {
            return Err(format!(
                "restore {volume} {number} ends with {}",
                restored.words()
            ));
        }
        if restored.output != bytes {
            return Err(format!("restore {volume} {number} gives other bytes"));
        }
        Ok(())
    }

    /// From where the store stands the story goes on to the end of command `upto`.
    pub fn goes_on(&mut self, standing: Standing, upto: usize) -> Result<(), String> {
        let story = self.judge.story();
        let last = upto.min(story.0.len() - 1);
        self.opens(standing)?;
        for at in (0..=last).filter(|&at| !story.is_there(standing, at)) {
            self.run_well(&story.0[at])?;
        }
        let tree = self.load()?;
        self.judge.holds(&tree, story.standing(last + 1).store)
    }

    /// Complains about files that nobody needs.
    pub fn nothing_left(&self) -> Result<(), String> {
        match self.load()?.names().find(|name| !is_wanted(name)) {
            Some(name) => Err(format!("{name} is left")),
            None => Ok(()),
        }
    }

    /// The aid takes one more backup, of an image with one new block, and it reads back. One that
    /// has left takes none.
    pub fn next_backup(&self, upto: usize, volume: u16) -> Result<(), String> {
        let story = self.judge.story();
        let store = story.standing(upto + 1).store;
        if story.is_retired(store, volume) {
            return Ok(());
        }
        let day = 200 + volume;
        let mut image = letters(story.taken(store), volume);
        image.replace_range(..image.len().min(1), "Z");
        let extra = [
            Command::Collect { day },
            Command::Backup { volume, day, image },
        ];
        for command in &extra {
            self.run_well(command)?;
        }
        let images = images_of(story.taken(store).chain(&extra));
        let mut own = images.iter().filter(|((of, _), _)| *of == volume);
        let ((_, number), bytes) = own.next_back().expect("a backup was made");
        self.restores(volume, *number, bytes)
    }
}

fn is_wanted(name: &str) -> bool {
    let in_store = name.strip_prefix("box/");
    match in_store {
        Some(file) => ["book", "pool", "lock"].contains(&file),
        None => [STORE, OUT, "aid0", "aid1"].contains(&name),
    }
}
