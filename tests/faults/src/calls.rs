//! The shim's log: the calls by which a program wrote.

use crate::fault::How;

#[derive(Clone, Debug, PartialEq, Eq)]
pub enum Call {
    Open {
        purpose: String,
        path: String,
    },
    Write {
        fd: i32,
        offset: usize,
        bytes: Vec<u8>,
    },
    Sync {
        fd: i32,
    },
    Cut {
        fd: i32,
        length: usize,
    },
    /// A file's owner or mode is set.
    Access,
    Close,
    Lock,
    Rename {
        from: String,
        to: String,
    },
    Unlink {
        path: String,
    },
    MakeFolder {
        path: String,
    },
}

#[derive(Clone, Debug)]
pub struct Logged {
    /// From 1; 0 for an opening that can't write.
    pub number: usize,
    pub name: String,
    /// If the call failed, the error's number below 0.
    pub result: i64,
    pub call: Call,
}

/// The error of a call that was interrupted and can be made again.
pub const INTERRUPTED: i64 = -4;

pub fn read_log(text: &str) -> Vec<Logged> {
    text.lines().map(read_line).collect()
}

fn read_line(line: &str) -> Logged {
    let fields: Vec<&str> = line.split('\t').collect();
    let text = |at: usize| fields[at].to_string();
    let fd = || number(fields[3]) as i32;
    let call = match fields[1] {
        "open" => Call::Open {
            purpose: text(3),
            path: text(4),
        },
        "write" => Call::Write {
            fd: fd(),
            offset: number(fields[4]) as usize,
            bytes: unhex(fields[5]),
        },
        "fsync" | "fdatasync" => Call::Sync { fd: fd() },
        "ftruncate" => Call::Cut {
            fd: fd(),
            length: number(fields[4]) as usize,
        },
        "fchmod" | "fchown" => Call::Access,
        "close" => Call::Close,
        "flock" => Call::Lock,
        "rename" => Call::Rename {
            from: text(3),
            to: text(4),
        },
        "unlink" => Call::Unlink { path: text(3) },
        "mkdir" => Call::MakeFolder { path: text(3) },
        other => panic!("the shim logs a call {other}"),
    };
    Logged {
        number: number(fields[0]) as usize,
        name: text(1),
        result: number(fields[2]),
        call,
    }
}

fn number(text: &str) -> i64 {
    text.parse().expect("a number in the shim's log")
}

fn unhex(text: &str) -> Vec<u8> {
    let digit = |byte: u8| char::from(byte).to_digit(16).expect("a hexadecimal digit") as u8;
    let pairs = text.as_bytes().chunks(2);
    pairs.map(|p| 16 * digit(p[0]) + digit(p[1])).collect()
}

impl Logged {
    /// The ways in which this call can go wrong.
    pub fn ways(&self) -> Vec<How> {
        use How::*;
        let own: &[How] = match self.call {
            Call::Open { .. } => &[NoSpace, Interrupted, Full],
            Call::Write { .. } => &[NoSpace, Interrupted, Full, Short, Torn],
            Call::Sync { .. } => &[NoSpace, Interrupted],
            Call::Cut { .. } => &[Interrupted, Full],
            Call::Lock => &[Interrupted],
            Call::Rename { .. } | Call::MakeFolder { .. } => &[NoSpace, Full],
            Call::Access | Call::Close | Call::Unlink { .. } => &[],
        };
        let all = [Failed, Before, After, Dead];
        all.iter().chain(own).copied().collect()
    }
}
