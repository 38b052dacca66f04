//! Breaks the second implementation in the ways of `mutants.txt` and shows that the differential
//! tests see each. ASPEN_LIB_DIR is the archives' folder, by default ../target/staticlib.

mod copy;
mod mutant;
mod switch;

use std::path::{Path, PathBuf};
use std::process::{Command, ExitCode};
use std::sync::atomic::{AtomicUsize, Ordering};
use std::thread;
use std::{env, fs};

use mutant::Mutant;

fn main() -> ExitCode {
    match run() {
        Ok(failed) => ExitCode::from(u8::from(failed > 0)),
        Err(message) => {
            eprintln!("mutants: {message}");
            ExitCode::from(2)
        }
    }
}

/// Gives how many mutants weren't caught.
fn run() -> Result<usize, String> {
    let workspace = Path::new(env!("CARGO_MANIFEST_DIR")).join("..");
    let mutants = mutant::parse(include_str!("../mutants.txt"))?;
    let folder = workspace.join("target/mutants");
    copy::make(&workspace, &folder.join("work"), &mutants)?;
    let program = build(&folder, &archives(&workspace)?)?;
    let failed = try_all(&program, &mutants)?;
    println!("{} passed, {failed} failed", mutants.len() - failed);
    Ok(failed)
}

fn archives(workspace: &Path) -> Result<PathBuf, String> {
    let folder = env::var_os("ASPEN_LIB_DIR").unwrap_or_else(|| "../target/staticlib".into());
    let folder = workspace.join(folder);
    fs::canonicalize(&folder).map_err(|error| format!("{}: {error}", folder.display()))
}

/// Builds the differential tests of the copy; lints are for the original.
fn build(folder: &Path, archives: &Path) -> Result<PathBuf, String> {
    let target = folder.join("build");
    let mut cargo = Command::new(env::var_os("CARGO").unwrap_or_else(|| "cargo".into()));
    cargo
        .args([
            "build",
            "--offline",
            "--release",
            "--quiet",
            "-p",
            "differential",
        ])
        .current_dir(folder.join("work"))
        .env("CARGO_TARGET_DIR", &target)
        .env("ASPEN_LIB_DIR", archives)
        .env("RUSTFLAGS", "--cap-lints=allow");
    match cargo.status() {
        Ok(status) if status.success() => Ok(target.join("release/differential")),
        Ok(_) => Err("the copy with the mutants doesn't build".into()),
        Err(error) => Err(format!("cargo: {error}")),
    }
}

enum Verdict {
    /// The first difference.
    Caught(String),
    Survived,
    /// The program ended in another way.
    Stopped(String),
}

fn tried(program: &Path, number: usize) -> Result<Verdict, String> {
    let output = Command::new(program)
        .arg("first")
        .env("ASPEN_MUTANT", number.to_string())
        .env("RUST_BACKTRACE", "0")
        .output()
        .map_err(|error| format!("{}: {error}", program.display()))?;
    let text = |bytes: &[u8]| String::from_utf8_lossy(bytes).trim().to_string();
    Ok(match output.status.code() {
        Some(0) => Verdict::Survived,
        Some(1) => Verdict::Caught(text(&output.stdout)),
        _ => Verdict::Stopped(text(&output.stderr)),
    })
}

/// Tries each mutant, some at a time, and prints a line for each. The copy without one has to
/// survive.
fn try_all(program: &Path, mutants: &[Mutant]) -> Result<usize, String> {
    let (next, failed) = (AtomicUsize::new(0), AtomicUsize::new(0));
    let work = || -> Result<(), String> {
        loop {
            let number = next.fetch_add(1, Ordering::Relaxed);
            if number > mutants.len() {
                return Ok(());
            }
            let verdict = tried(program, number)?;
            let Some(mutant) = number.checked_sub(1).map(|index| &mutants[index]) else {
                expect_survival(&verdict)?;
                continue;
            };
            let (word, how) = match &verdict {
                Verdict::Caught(line) => ("caught", &line[..]),
                Verdict::Survived => ("SURVIVED", "no difference"),
                Verdict::Stopped(line) => ("STOPPED", &line[..]),
            };
            failed.fetch_add(usize::from(word != "caught"), Ordering::Relaxed);
            println!("{word}: {}: {how}", mutant.name);
        }
    };
    thread::scope(|scope| {
        let threads = thread::available_parallelism().map_or(1, usize::from);
        let workers: Vec<_> = (0..threads).map(|_| scope.spawn(work)).collect();
        let ends = workers.into_iter().map(|w| w.join().expect("a worker"));
        ends.collect::<Result<Vec<()>, String>>()
    })?;
    Ok(failed.into_inner())
}

fn expect_survival(verdict: &Verdict) -> Result<(), String> {
    match verdict {
        Verdict::Survived => Ok(()),
        Verdict::Caught(line) | Verdict::Stopped(line) => {
            Err(format!("the copy without a mutant differs: {line}"))
        }
    }
}
