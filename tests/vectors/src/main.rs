//! Writes the vectors to a folder.
//!     vectors FOLDER        inputs of the program tally: NAME.book and, beside it, NAME.page
//!                           with what tally must print
//!     vectors seeds FOLDER  inputs that the fuzz targets start from

use std::path::Path;
use std::process::ExitCode;
use std::{env, fs, io};

use vectors::seeds;

fn write_pages(folder: &Path) -> io::Result<usize> {
    fs::create_dir_all(folder)?;
    let vectors = vectors::all();
    for vector in &vectors {
        fs::write(folder.join(format!("{}.book", vector.name)), &vector.book)?;
        fs::write(folder.join(format!("{}.page", vector.name)), vector.page())?;
    }
    Ok(vectors.len())
}

fn write_seeds(folder: &Path) -> io::Result<usize> {
    fs::create_dir_all(folder)?;
    let seeds = seeds::all();
    for (name, input) in &seeds {
        fs::write(folder.join(name), input)?;
    }
    Ok(seeds.len())
}

fn main() -> ExitCode {
    let arguments: Vec<String> = env::args().skip(1).collect();
    let words: Vec<&str> = arguments.iter().map(String::as_str).collect();
    let written = match words[..] {
        ["seeds", folder] => write_seeds(Path::new(folder)),
        [folder] => write_pages(Path::new(folder)),
        _ => {
            eprintln!("usage: vectors [seeds] FOLDER");
            return ExitCode::from(2);
        }
    };
    match written {
        Ok(number) => {
            println!("{number} written");
            ExitCode::SUCCESS
        }
        Err(error) => {
            eprintln!("vectors: {error}");
            ExitCode::FAILURE
        }
    }
}
