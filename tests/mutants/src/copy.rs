//! A copy of the workspace with the mutants in it.

use std::fs;
use std::path::Path;

use crate::mutant::Mutant;
use crate::switch::{switched, MODULE};

/// The package that gets the switch.
const HOME: &str = "reference";

type Result<T> = std::result::Result<T, String>;

/// Copies the workspace's files from `from` to `to` with all mutants in them. A file that is
/// there already is left alone, so that cargo builds no more than it must.
pub fn make(from: &Path, to: &Path, mutants: &[Mutant]) -> Result<()> {
    for folder in [
        "reference",
        "reference_c",
        "vectors",
        "differential",
        "mutants",
        "faults",
    ] {
        copy_folder(from, to, Path::new(folder), mutants)?;
    }
    for file in ["Cargo.toml", "Cargo.lock", "archives.txt"] {
        copy_file(from, to, Path::new(file), mutants)?;
    }
    let missing = mutants.iter().find(|m| !to.join(&m.file).is_file());
    missing.map_or(Ok(()), |mutant| Err(format!("no file {}", mutant.file)))
}

fn copy_folder(from: &Path, to: &Path, folder: &Path, mutants: &[Mutant]) -> Result<()> {
    let failed = |error| format!("{}: {error}", folder.display());
    fs::create_dir_all(to.join(folder)).map_err(failed)?;
    for entry in fs::read_dir(from.join(folder)).map_err(failed)? {
        let entry = entry.map_err(failed)?;
        let path = folder.join(entry.file_name());
        match entry.file_type().map_err(failed)?.is_dir() {
            true => copy_folder(from, to, &path, mutants)?,
            false => copy_file(from, to, &path, mutants)?,
        }
    }
    Ok(())
}

fn copy_file(from: &Path, to: &Path, path: &Path, mutants: &[Mutant]) -> Result<()> {
    let failed = |error| format!("{}: {error}", path.display());
    let text = fs::read_to_string(from.join(path)).map_err(failed)?;
    let text = mutated(text, path, mutants)?;
    if fs::read_to_string(to.join(path)).is_ok_and(|there| there == text) {
        return Ok(());
    }
    fs::write(to.join(path), text).map_err(failed)
}

fn mutated(mut text: String, path: &Path, mutants: &[Mutant]) -> Result<String> {
    let numbered = (1..).zip(mutants);
    let here: Vec<_> = numbered
        .filter(|(_, mutant)| Path::new(&mutant.file) == path)
        .collect();
    if !here.is_empty() {
        let at_home = path.starts_with(HOME);
        let switch = if at_home {
            "crate::mutant"
        } else {
            "reference::mutant"
        };
        text = switched(&text, switch, &here)?;
    }
    if path == Path::new(HOME).join("src/lib.rs") {
        text.push_str(&format!("\npub mod mutant {{{MODULE}}}\n"));
    }
    Ok(text)
}
