//! Runs aspenbox under the shim.

use std::fs;
use std::io;
use std::os::unix::process::ExitStatusExt;
use std::path::{Path, PathBuf};
use std::process::{Command, Stdio};

use crate::calls::{read_log, Logged};
use crate::fault::Fault;

/// The statuses that aspenbox documents.
pub mod status {
    pub const DONE: i32 = 0;
    pub const UNSOUND: i32 = 1;
    pub const USAGE: i32 = 2;
    pub const REFUSED: i32 = 3;
    pub const FILES: i32 = 4;
    pub const STORE: i32 = 5;
}

pub struct Program {
    pub aspenbox: PathBuf,
    pub shim: PathBuf,
}

pub struct Ended {
    /// None if a signal ended it.
    pub status: Option<i32>,
    pub signal: Option<i32>,
    pub output: Vec<u8>,
    pub errors: String,
    pub calls: Vec<Logged>,
}

const SIGKILL: i32 = 9;

impl Ended {
    pub fn killed(&self) -> bool {
        self.signal == Some(SIGKILL)
    }

    /// How it ended, in words.
    pub fn words(&self) -> String {
        match (self.status, self.signal) {
            (Some(status), _) => format!("status {status}: {}", self.errors.trim()),
            (None, signal) => format!("signal {}", signal.unwrap_or(0)),
        }
    }
}

impl Program {
    /// Runs a command in a folder. The shim's log is beside the folder.
    pub fn run(&self, folder: &Path, words: &[String], fault: Option<Fault>) -> io::Result<Ended> {
        self.end(Command::new(&self.aspenbox).args(words), folder, fault)
    }

    /// The same without some of the standard streams, as a shell closes them.
    pub fn run_without(
        &self,
        closed: &str,
        folder: &Path,
        words: &[String],
        fault: Option<Fault>,
    ) -> io::Result<Ended> {
        let script = format!("exec \"$@\" {closed}");
        let mut shell = Command::new("sh");
        shell.args(["-c", &script, "sh"]).arg(&self.aspenbox);
        self.end(shell.args(words), folder, fault)
    }

    fn end(&self, command: &mut Command, folder: &Path, fault: Option<Fault>) -> io::Result<Ended> {
        let log = folder.with_extension("calls");
        if log.exists() {
            fs::remove_file(&log)?;
        }
        command.current_dir(folder).stdin(Stdio::null());
        command.env("LD_PRELOAD", &self.shim).env("SHIM_LOG", &log);
        // The library for fingerprints would read its settings at every start.
        command.env("OPENSSL_CONF", "/dev/null");
        if let Some(fault) = fault {
            command.env("SHIM_AT", fault.at.to_string());
            command.env("SHIM_HOW", fault.how.name());
        }
        let ended = command.output()?;
        Ok(Ended {
            status: ended.status.code(),
            signal: ended.status.signal(),
            output: ended.stdout,
            errors: String::from_utf8_lossy(&ended.stderr).into_owned(),
            calls: read_log(&fs::read_to_string(&log)?),
        })
    }
}
