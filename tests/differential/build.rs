//! Links the archives that `archives.txt` names. ASPEN_LIB_DIR is their folder, taken from the
//! workspace's; by default ../target/staticlib.

use std::path::Path;
use std::{env, fs};

fn main() {
    println!("cargo:rerun-if-changed=build.rs");
    println!("cargo:rerun-if-changed=../archives.txt");
    println!("cargo:rerun-if-env-changed=ASPEN_LIB_DIR");
    let folder = env::var("ASPEN_LIB_DIR").unwrap_or_else(|_| "../target/staticlib".into());
    let folder = Path::new("..").join(folder);
    let folder = fs::canonicalize(&folder)
        .unwrap_or_else(|error| panic!("no archives in {}: {error}", folder.display()));
    println!("cargo:rustc-link-search=native={}", folder.display());
    let names = fs::read_to_string("../archives.txt").expect("the names of the archives");
    for archive in names.lines() {
        let file = folder.join(format!("lib{archive}.a"));
        assert!(file.is_file(), "no {}", file.display());
        println!("cargo:rerun-if-changed={}", file.display());
        println!("cargo:rustc-link-lib=static={archive}");
    }
}
