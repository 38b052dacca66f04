//! That the shim sees every call by which the program writes: by the program's imports, and by
//! what the system sees of a run (strace).

use std::fs;
use std::process::Command;

use crate::bench::{or_complain, Bench};
use crate::played::Scene;
use crate::program::Program;

/// What the C library has for writing or naming files and the shim doesn't know.
const UNKNOWN: [&str; 46] = [
    "__openat64_2",
    "__openat_2",
    "aio_write",
    "chmod",
    "chown",
    "copy_file_range",
    "creat",
    "creat64",
    "dup",
    "dup2",
    "dup3",
    "execve",
    "fallocate",
    "fallocate64",
    "fdopen",
    "fopen",
    "fopen64",
    "fork",
    "freopen",
    "freopen64",
    "link",
    "linkat",
    "mkdirat",
    "mkostemp",
    "mkstemp",
    "mkstemp64",
    "mmap",
    "mmap64",
    "popen",
    "posix_fallocate",
    "posix_spawn",
    "pwritev",
    "remove",
    "renameat2",
    "rmdir",
    "sendfile",
    "splice",
    "symlink",
    "sync",
    "syscall",
    "syncfs",
    "system",
    "tmpfile",
    "truncate",
    "unlinkat",
    "writev",
];

/// Calls of the system on files and names that write nothing, and those that the shim knows.
const READING: [&str; 17] = [
    "access",
    "close",
    "execve",
    "faccessat2",
    "fcntl",
    "fstat",
    "getcwd",
    "ioctl",
    "lseek",
    "mmap",
    "newfstatat",
    "pread64",
    "read",
    "readlink",
    "readlinkat",
    "stat",
    "statx",
];
const SHIMMED: [&str; 17] = [
    "fchmod",
    "fchown",
    "fdatasync",
    "flock",
    "fsync",
    "ftruncate",
    "mkdir",
    "mkdirat",
    "open",
    "openat",
    "pwrite64",
    "rename",
    "renameat",
    "renameat2",
    "unlink",
    "unlinkat",
    "write",
];

pub fn check_imports(program: &Program) -> Result<(), String> {
    let listed = or_complain(Command::new("nm").arg("-D").arg(&program.aspenbox).output())?;
    let text = String::from_utf8_lossy(&listed.stdout);
    let imports: Vec<&str> = text
        .lines()
        .filter_map(|line| line.trim().strip_prefix("U "))
        .map(|name| name.split('@').next().unwrap_or(name))
        .collect();
    if !imports.contains(&"fsync") {
        return Err(format!("nm lists no imports: {:?}", listed.status));
    }
    match imports.iter().find(|name| UNKNOWN.contains(name)) {
        Some(name) => Err(format!("it imports {name}, which the shim doesn't know")),
        None => Ok(()),
    }
}

pub fn has_strace() -> bool {
    let tried = Command::new("strace").args(["-qq", "true"]).output();
    tried.is_ok_and(|ended| ended.status.success())
}

/// The system sees the calls that the shim saw when the story was played, and no others.
pub fn check_calls(bench: &Bench, scene: &Scene) -> Result<(), String> {
    bench.store(&scene.tree)?;
    let log = bench.folder.with_extension("strace");
    let mut strace = Command::new("strace");
    strace.args([
        "-f",
        "-qq",
        "-e",
        "trace=%file,%desc",
        "-e",
        "signal=none",
        "-o",
    ]);
    strace.arg(&log).arg(&bench.program.aspenbox);
    strace
        .args(scene.command.words())
        .current_dir(&bench.folder);
    bench.bring(&scene.command)?;
    let ended = or_complain(strace.output())?;
    if !ended.status.success() {
        return Err(String::from_utf8_lossy(&ended.stderr).into_owned());
    }
    let text = or_complain(fs::read_to_string(&log))?;
    let mut system = Vec::new();
    for line in text.lines() {
        system.extend(writing_call(line)?);
    }
    let shim: Vec<&str> = scene
        .calls
        .iter()
        .filter(|logged| logged.number > 0 && logged.name != "close")
        .map(|logged| logged.name.as_str())
        .collect();
    if system != shim {
        return Err(format!("the system sees {system:?}, the shim {shim:?}"));
    }
    Ok(())
}

/// The shim's name for the call in a line of strace, if it is one that the shim counts.
fn writing_call(line: &str) -> Result<Option<&'static str>, String> {
    let call = line
        .split_once(' ')
        .map_or("", |(_, call)| call.trim_start());
    let Some((name, arguments)) = call.split_once('(') else {
        return Ok(None);
    };
    if name == "mmap" && arguments.contains("MAP_SHARED") && arguments.contains("PROT_WRITE") {
        return Err(format!("a file is written through memory: {line}"));
    }
    if READING.contains(&name) {
        return Ok(None);
    }
    let Some(known) = SHIMMED.iter().find(|known| **known == name) else {
        return Err(format!("the shim doesn't know this call: {line}"));
    };
    let counted = match *known {
        "open" | "openat" => ["O_WRONLY", "O_RDWR", "O_CREAT", "O_TRUNC", "O_DIRECTORY"]
            .iter()
            .any(|flag| arguments.contains(flag)),
        "write" => !arguments.starts_with("1,") && !arguments.starts_with("2,"),
        _ => true,
    };
    Ok(counted.then_some(match *known {
        "openat" => "open",
        "pwrite64" => "write",
        "renameat" | "renameat2" => "rename",
        "unlinkat" => "unlink",
        "mkdirat" => "mkdir",
        other => other,
    }))
}
