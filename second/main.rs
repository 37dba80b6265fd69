//! The command: runs, checks and makes box scripts, writes and replays logs.

use std::fs;
use std::io::{self, BufRead, BufWriter, Write};
use std::process::ExitCode;

use second::coverage::Coverage;
use second::valid::is_valid;
use second::{generate, script};

const USAGE: &str = "usage: second run | check | log | replay LOG [MOST] | generate SEED ROWS
              | single SEED ROWS | continue SEED ROWS | suite SEED ROWS | coverage SEED ROWS";

/// The whole suite as one script.
fn suite_text(seed: u64, rows: u64) -> String {
    generate::suite(seed, rows).into_iter().map(|(_, script)| script).collect()
}

/// Reads SEED and ROWS.
fn seed_and_rows(arguments: &[String]) -> Option<(u64, u64)> {
    let [seed, rows] = arguments else { return None };
    Some((seed.parse().ok()?, rows.parse().ok()?))
}

/// Says what is wrong, after all that was written before it.
fn fail(status: u8, output: &mut impl Write, why: &str) -> io::Result<ExitCode> {
    output.flush()?;
    eprintln!("{why}");
    Ok(ExitCode::from(status))
}

/// Replays the file on the script's box; file and number are judged first.
fn replay(
    path: &str,
    most: Option<&String>,
    input: impl BufRead,
    output: &mut impl Write,
) -> io::Result<ExitCode> {
    let Some(most) = most.map_or(Some(u64::MAX), |word| script::decimal(word)) else {
        return fail(2, output, "second: MOST is not a number");
    };
    let log = match fs::read(path) {
        Ok(log) => log,
        Err(error) => return fail(2, output, &format!("second: {path}: {error}")),
    };
    script::replay(input, &log, most, output)?;
    output.flush()?;
    Ok(ExitCode::SUCCESS)
}

fn command(arguments: &[String], output: &mut impl Write) -> io::Result<ExitCode> {
    let input = io::stdin().lock();
    let (name, rest) = arguments.split_first().map_or(("", arguments), |(n, r)| (n.as_str(), r));
    match (name, rest, seed_and_rows(rest)) {
        ("run", [], _) => drop(script::run(input, output)?),
        ("check", [], _) => {
            if let Err((line, why)) = script::check(input, output)? {
                return fail(1, output, &format!("line {line}: {why}"));
            }
        }
        ("log", [], _) => {
            if let Err((line, why)) = script::write_log(input, output)? {
                return fail(1, output, &format!("line {line}: {why}"));
            }
        }
        ("replay", [path], _) => return replay(path, None, input, output),
        ("replay", [path, most], _) => return replay(path, Some(most), input, output),
        ("generate", _, Some((seed, rows))) => {
            write!(output, "{}", generate::generate(seed, rows))?;
        }
        ("single", _, Some((seed, rows))) => write!(output, "{}", generate::single(seed, rows))?,
        ("continue", _, Some((seed, rows))) => {
            match script::run(input, &mut io::sink())?.filter(is_valid) {
                Some(machine) => write!(output, "{}", generate::go_on(seed, rows, machine))?,
                None => return fail(1, output, "second: the script leaves no box to go on from"),
            }
        }
        ("suite", _, Some((seed, rows))) => write!(output, "{}", suite_text(seed, rows))?,
        ("coverage", _, Some((seed, rows))) => {
            write!(output, "{}", Coverage::of(suite_text(seed, rows).as_bytes())?)?;
        }
        _ => return fail(2, output, USAGE),
    }
    output.flush()?;
    Ok(ExitCode::SUCCESS)
}

fn main() -> ExitCode {
    let arguments: Vec<String> = std::env::args().skip(1).collect();
    let mut output = BufWriter::new(io::stdout().lock());
    command(&arguments, &mut output).unwrap_or_else(|error| {
        eprintln!("second: {error}");
        ExitCode::FAILURE
    })
}
