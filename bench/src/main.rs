//! Compares and times the board of this repository against a plain one.

mod board;
mod compare;
mod event_list;
mod foreign;
mod lists;
mod replay;
mod timing;
mod words;

use std::env;
use std::process::ExitCode;

const USAGE: &str = "usage: bench/run [compare [ACTS [SEED]] | time | count]; the program alone also takes play plain|other KIND";
const ACTS: u64 = 10_000_000;
const SEED: u64 = 1;

fn main() -> ExitCode {
    let words: Vec<String> = env::args().skip(1).collect();
    let words: Vec<&str> = words.iter().map(String::as_str).collect();
    match words[..] {
        ["compare"] => compare::compare(ACTS, SEED),
        ["compare", acts] => match acts.parse() {
            Ok(acts) => compare::compare(acts, SEED),
            Err(_) => usage(),
        },
        ["compare", acts, seed] => match (acts.parse(), seed.parse()) {
            (Ok(acts), Ok(seed)) => compare::compare(acts, seed),
            _ => usage(),
        },
        ["time"] => timing::time(),
        ["play", board, kind] => timing::play(board, kind),
        _ => usage(),
    }
}

fn usage() -> ExitCode {
    eprintln!("{USAGE}");
    ExitCode::from(2)
}
