//! Times the library against two Rust versions of the machine and prints tables of ratios, or its
//! test for validity against a quadratic one. docs/SPEED.md says how.
//!
//!     bench [ROUNDS]                      first compares answers, then measures
//!     bench check                         compares answers alone
//!     bench mixed [ROUNDS]                compares, then measures mixed rows alone
//!     bench retire [ROUNDS]               the same for a VM retired
//!     bench valid [ROUNDS]                the test for validity: compares, then measures
//!     bench free [ROUNDS]                 the free query: the same
//!     bench registers ONE OTHER [TURNS]   mixed rows of the library in two programs, by turns
//!     bench library [ROUNDS]              what such a program is asked for: its own mixed rows

mod agree;
mod boxes;
mod cases;
mod contest;
mod free;
mod inputs;
mod library;
mod measure;
mod mixed;
mod quadratic;
mod retire;
mod validity;

use std::path::Path;
use std::process::ExitCode;

/// Rows of the suite by which the machines are compared.
const COMPARED: u64 = 100_000;
const SEED: u64 = 1;
/// Rounds of every line, and turns of two programs, unless the command says otherwise.
const ROUNDS: usize = 200;
const TURNS: usize = 20;

const USAGE: &str = "usage: bench [ROUNDS] | bench check | bench mixed [ROUNDS] | \
    bench retire [ROUNDS] | bench valid [ROUNDS] | bench free [ROUNDS] | \
    bench registers ONE OTHER [TURNS] | bench library [ROUNDS]";

/// All machines held to the same answers.
fn agreement() -> Result<(), String> {
    let rows = agree::compare(SEED, COMPARED)?;
    println!("{rows} generated rows: the library and both builds of (a) and (b) answer alike.");
    Ok(())
}

/// A number that may be left out.
fn number(given: Option<&String>, otherwise: usize) -> Result<usize, String> {
    given.map_or(Ok(otherwise), |text| text.parse().map_err(|_| USAGE.to_string()))
}

fn carry_out(words: &[String]) -> Result<(), String> {
    let rounds = |at: usize| number(words.get(at), ROUNDS);
    match words.first().map(String::as_str) {
        Some("check") => agreement(),
        Some("mixed") => {
            let rounds = rounds(1)?;
            agreement().map(|()| mixed::lines(rounds))
        }
        Some("retire") => {
            let rounds = rounds(1)?;
            agreement().and_then(|()| retire::lines(rounds))
        }
        Some("valid") => {
            let rounds = rounds(1)?;
            println!("{}", validity::agree()?);
            validity::table(rounds);
            Ok(())
        }
        Some("free") => free::table(rounds(1)?),
        Some("registers") => {
            let [_, one, other, rest @ ..] = words else { return Err(USAGE.to_string()) };
            let programs = [one, other].map(Path::new);
            mixed::registers(programs, number(rest.first(), TURNS)?)
        }
        Some("library") => rounds(1).map(mixed::library_alone),
        _ => {
            let rounds = rounds(0)?;
            agreement().and_then(|()| measure::table(rounds))
        }
    }
}

fn main() -> ExitCode {
    let words: Vec<String> = std::env::args().skip(1).collect();
    match carry_out(&words) {
        Ok(()) => ExitCode::SUCCESS,
        Err(said) => {
            eprintln!("{said}");
            ExitCode::FAILURE
        }
    }
}
