//! Compares the archives' C functions with the reference's. See `usage`.

mod bucket;
mod coverage;
mod guarded;
mod interface;
mod lent;
#[cfg(test)]
mod notices;
mod outcome;
mod parts;
mod request;
mod run;
mod seen;
mod shapes;

use std::env;
use std::process::ExitCode;

const USAGE: &str = "usage: differential
    compares all that `make check` compares, and prints the coverage
differential first
    the same in one thread, up to the first difference; prints nothing else
differential soak CALLS
    all of it and more, until this many calls are compared, with progress on standard error";

fn main() -> ExitCode {
    let arguments: Vec<String> = env::args().skip(1).collect();
    let words: Vec<&str> = arguments.iter().map(String::as_str).collect();
    match words[..] {
        [] => run::check(),
        ["first"] => run::first(),
        ["soak", calls] => match calls.parse() {
            Ok(calls) => run::soak(calls),
            Err(_) => usage(),
        },
        _ => usage(),
    }
}

fn usage() -> ExitCode {
    eprintln!("{USAGE}");
    ExitCode::from(2)
}
