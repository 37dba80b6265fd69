//! Ten thousand mixed rows: of all machines in one run, and of two builds of the library by turns.

use std::hint::black_box;
use std::path::Path;
use std::process::Command;
use std::time::Duration;

use face::{Machine, Row, Setup, PAGES};

use crate::agree::mixed;
use crate::contest::{contest, time, Machines, Times, ROWS};
use crate::library::Library;
use crate::measure::{figure, heading, joined, less, line};

/// The numbers of pages.
const SIZES: [usize; 3] = [8, 64, PAGES];
/// A rest before every turn: who has just rested is least likely to be interrupted in a long call.
const PAUSE: Duration = Duration::from_millis(1);
/// Calls where a sequence is given in parts.
const PARTS: usize = 100;

fn call(machine: &mut dyn Machine, rows: &[Row]) -> f64 {
    time(|| machine.sequence(black_box(rows)))
}

/// From a fresh start, nanoseconds of all rows in one call, and of a call with no rows.
fn one_call(setup: &Setup, rows: &[Row], rounds: usize) -> [Times; 2] {
    contest(&mut Machines::started(setup), rounds, |machine| {
        std::thread::sleep(PAUSE);
        machine.start(setup);
        let bare = call(machine, &[]);
        [call(machine, rows), bare]
    })
}

/// The same rows in parts; of each part the least of all rounds, together.
fn in_parts(setup: &Setup, rows: &[Row], rounds: usize) -> Times {
    let part = |k: usize| &rows[rows.len() * k / PARTS..rows.len() * (k + 1) / PARTS];
    let least: [Times; PARTS] = contest(&mut Machines::started(setup), rounds, |machine| {
        std::thread::sleep(PAUSE);
        machine.start(setup);
        std::array::from_fn(|k| call(machine, part(k)))
    });
    std::array::from_fn(|place| least.iter().map(|times| times[place]).sum())
}

/// The table, a figure for each number of pages.
pub fn lines(rounds: usize) {
    let [mut whole, mut alone, mut parts] = [const { Vec::new() }; 3];
    for pages in SIZES {
        let (setup, rows) = mixed(pages);
        let a_row = |times: Times| times.map(|time| time / rows.len() as f64);
        let [all, bare] = one_call(&setup, &rows, rounds);
        whole.push(a_row(all));
        alone.push(a_row(less(all, bare)));
        parts.push(a_row(in_parts(&setup, &rows, rounds)));
    }
    heading(&format!("{ROWS} mixed rows, N = {SIZES:?}, ns a row"), "in");
    line("one call", &whole);
    line("one call, less one with no rows", &alone);
    line(&format!("calls of {} rows", ROWS / PARTS), &parts);
    let [_, a, b, c, d] = std::array::from_fn(|place| joined(&whole, |times| figure(times[place])));
    println!("\nns a row: (a) {a}; (b) {b}; with vector loops (a) {c}; (b) {d}");
}

// ---- Two builds of the library.

/// Prints the library's own nanoseconds of a row, in one call, for each number of pages.
pub fn library_alone(rounds: usize) {
    for (setup, rows) in SIZES.map(mixed) {
        let library = &mut Library::new(setup.pages, ROWS);
        let round = |_| {
            std::thread::sleep(PAUSE);
            library.start(&setup);
            call(library, &rows)
        };
        let least = (0..rounds).map(round).fold(f64::INFINITY, f64::min);
        println!("{}", least / rows.len() as f64);
    }
}

/// What such a program prints.
fn printed(program: &Path) -> Result<[f64; SIZES.len()], String> {
    let output = Command::new(program).args(["library", "10"]).output();
    let output = output.map_err(|error| format!("{}: {error}", program.display()))?;
    let text = String::from_utf8_lossy(&output.stdout);
    let numbers: Vec<f64> = text.lines().flat_map(str::parse).collect();
    numbers.try_into().map_err(|_| format!("{} prints {text}", program.display()))
}

/// Both programs by turns, so many times; of each the least.
pub fn registers(programs: [&Path; 2], turns: usize) -> Result<(), String> {
    let mut least = [[f64::INFINITY; SIZES.len()]; 2];
    for _ in 0..turns {
        for (least, program) in least.iter_mut().zip(programs) {
            for (least, spent) in least.iter_mut().zip(printed(program)?) {
                *least = least.min(spent);
            }
        }
    }
    let [general, all] = least;
    println!("{ROWS} mixed rows in one call, ns a row; each the least of {turns} turns of 10\n");
    println!("| N | general registers | with vector registers | general over vector |");
    println!("|---|---|---|---|");
    for (k, pages) in SIZES.iter().enumerate() {
        let (pages, general, all) = (figure(*pages as f64), general[k], all[k]);
        println!("| {pages} | {general:.0} | {all:.0} | {:.2} |", general / all);
    }
    Ok(())
}
