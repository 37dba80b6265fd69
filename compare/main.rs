//! Compares the library with the second program: see README.md.

mod bits;
mod calls;
mod cases;
mod couple;
mod damage;
mod damaged;
mod differ;
mod entries;
mod flaws;
mod log;
mod logflaws;
mod logs;
mod pack;
mod records;
mod replays;
mod report;
mod rows;
mod selftest;
mod slots;
mod spoil;
mod subject;
mod supply;
mod tally;
mod trial;

use std::process::ExitCode;

use subject::library;

const USAGE: &str = "usage: compare rows SEED ROWS | damaged SEED COUNT | slots SEED CALLS
               | log SEED COUNT | self-test";

fn main() -> ExitCode {
    let arguments: Vec<String> = std::env::args().skip(1).collect();
    let words: Vec<&str> = arguments.iter().map(String::as_str).collect();
    let numbers: Option<Vec<u64>> = words.iter().skip(1).map(|word| word.parse().ok()).collect();
    match (words.first().copied(), numbers.as_deref()) {
        (Some("rows"), Some(&[seed, rows])) => rows::report(seed, rows, &library),
        (Some("damaged"), Some(&[seed, count])) => damaged::report(seed, count, &library),
        (Some("slots"), Some(&[seed, calls])) => slots::report(seed, calls),
        (Some("log"), Some(&[seed, count])) => log::report(seed, count),
        (Some("self-test"), Some([])) => selftest::report(),
        _ => {
            eprintln!("{USAGE}");
            ExitCode::from(2)
        }
    }
}
