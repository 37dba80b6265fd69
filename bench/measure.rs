//! The tables, printed as docs/SPEED.md has them: what is timed, and their lines.

use std::cell::Cell;
use std::hint::black_box;

use face::{Machine, Setup, PAGES, PAGE_WORDS};

use crate::cases::{self, Case, Level, LEVELS};
use crate::contest::{contest, time, Machines, Times};
use crate::{mixed, retire};

/// The aim: at most the time of (a), and at most twice that of (b).
const AIM_BOUNDED: f64 = 1.0;
const AIM_IDIOMATIC: f64 = 2.0;
/// Mixed rows take so long that they get only every other round.
const MIXED_SHARE: usize = 2;

pub fn heading(title: &str, first: &str) {
    println!("\n{title}\n");
    println!(
        "| {first} | library | over (a) | over (b) | vector loops: over (a) | over (b) |\n\
         |---|---|---|---|---|---|"
    );
}

/// A whole number, in threes.
pub fn figure(number: f64) -> String {
    let digits = format!("{number:.0}");
    let mut figure = String::new();
    for (place, digit) in digits.chars().enumerate() {
        if place > 0 && (digits.len() - place) % 3 == 0 {
            figure.push(',');
        }
        figure.push(digit);
    }
    figure
}

/// What is said of each, one after the other.
pub fn joined<T>(each: &[T], say: impl Fn(&T) -> String) -> String {
    each.iter().map(say).collect::<Vec<_>>().join(" / ")
}

/// Three digits of a ratio.
pub fn ratio(number: f64) -> String {
    let places = match number {
        100.0.. => 0,
        10.0.. => 1,
        _ => 2,
    };
    format!("{number:.places$}")
}

/// A line of several figures.
pub fn line(name: &str, all: &[Times]) {
    let over = |place: usize| joined(all, |times| ratio(times[0] / times[place]));
    let library = joined(all, |times| figure(times[0]));
    println!("| {name} | {library} | {} | {} | {} | {} |", over(1), over(2), over(3), over(4));
}

pub fn less(times: Times, part: Times) -> Times {
    std::array::from_fn(|k| times[k] - part[k])
}

// ---- One operation, in a sequence.

/// Machines of the level, with what the case asks for. The case has been carried out once.
fn prepared(level: Level, case: &Case) -> Machines {
    let mut machines = Machines::started(&cases::setup());
    for rows in [&cases::fill(level), &case.before, &case.timed, &case.undo] {
        machines.accept(rows);
    }
    machines
}

/// Nanoseconds of one figure of the case: its rows as one sequence, less a sequence of no rows on
/// the same state, which has all that a call costs beside its rows.
fn case_times(level: Level, case: &Case, rounds: usize) -> Times {
    let mut machines = prepared(level, case);
    let [bare, whole] = contest(&mut machines, rounds, |machine| {
        let bare = time(|| machine.sequence(black_box(&[])));
        let whole = time(|| machine.sequence(black_box(&case.timed)));
        machine.sequence(&case.undo);
        [bare, whole]
    });
    let figures = (case.timed.len() / case.rows_each) as f64;
    less(whole, bare).map(|time| time / figures)
}

fn case_of(level: Level, name: &str) -> Case {
    let found = cases::all(level).into_iter().find(|case| case.name == name);
    found.expect("every level has every case")
}

const AT_LEVELS: &str = "at empty / half-full / full tables, ns";

fn operation_lines(rounds: usize) {
    heading(&format!("Each operation in a sequence, {AT_LEVELS}"), "operation");
    let [all, within_bounded, within_idiomatic] = [const { Cell::new(0) }; 3];
    let count = |cell: &Cell<usize>, yes: bool| cell.set(cell.get() + yes as usize);
    for name in cases::all(Level::Empty).iter().map(|case| case.name) {
        let times = LEVELS.map(|level| case_times(level, &case_of(level, name), rounds));
        line(name, &times);
        for [library, bounded, idiomatic, ..] in times {
            count(&all, true);
            count(&within_bounded, library <= AIM_BOUNDED * bounded);
            count(&within_idiomatic, library <= AIM_IDIOMATIC * idiomatic);
        }
    }
    let [all, within_bounded, within_idiomatic] =
        [all, within_bounded, within_idiomatic].map(Cell::into_inner);
    println!(
        "\nOf these {all} figures {within_bounded} are within (a) and {within_idiomatic} within \
         twice (b)."
    );
}

// ---- The one-operation entry.

/// Nanoseconds of the library's one-operation entry, of the judgement in it, and of the operation
/// in a sequence.
fn entry_times(level: Level, case: &Case, rounds: usize) -> [f64; 3] {
    let [inside, ..] = case_times(level, case, rounds);
    let library = &mut prepared(level, case).library;
    let rows = &case.timed[..case.timed.len().min(64)];
    let (mut entry, mut judged) = (f64::INFINITY, f64::INFINITY);
    for _ in 0..rounds {
        let spent = time(|| rows.iter().map(|row| library.operation(black_box(row))).sum::<u64>());
        entry = entry.min(spent / rows.len() as f64);
        judged = judged.min(time(|| library.owned.shared().valid()));
    }
    [entry, judged, inside]
}

fn entry_lines(rounds: usize) {
    println!("\nThe library's one-operation entry, {AT_LEVELS}\n");
    println!(
        "| operation | entry | of that, judgement | operation in a sequence | entry over operation |\n\
         |---|---|---|---|---|"
    );
    for name in ["7 CPU map, replaced", "21 CPU read", "25 data barrier"] {
        let times = LEVELS.map(|level| entry_times(level, &case_of(level, name), rounds));
        let [entry, judged, inside] =
            std::array::from_fn(|place| joined(&times, |times| figure(times[place])));
        let over = joined(&times, |[entry, _, inside]| figure(entry / inside));
        println!("| {name} | {entry} | {judged} | {inside} | {over} |");
    }
}

// ---- Clearing and start.

/// Nanoseconds of a fill of one page with 0, which the compiler makes a memset.
fn fill_time(rounds: usize) -> f64 {
    const FILLS: usize = 128;
    let mut page = vec![1u64; PAGE_WORDS];
    let mut fills = || time(|| (0..FILLS).for_each(|_| black_box(&mut page[..]).fill(0)));
    (0..rounds).map(|_| fills()).fold(f64::INFINITY, f64::min) / FILLS as f64
}

fn clearing_lines(rounds: usize) {
    heading("A page given and taken back by turns, at empty tables, ns", "");
    let [clears, keeps] = cases::clearing().map(|case| {
        let times = case_times(Level::Empty, &case, rounds);
        line(case.name, &[times]);
        times
    });
    let (fill, [library, bounded, ..]) = (fill_time(rounds), less(clears, keeps));
    println!(
        "\nClearing 4 KiB, the difference: library {library:.1} ns, (a) {bounded:.1} ns; \
         `slice::fill(0)` {fill:.1} ns. Library over `slice::fill`: {:.2}",
        library / fill
    );
}

fn start_lines(rounds: usize) {
    heading("Start, ns", "N");
    for pages in [8, 64, PAGES] {
        let units = vec![[1, 16, 0, 3, 3, 3], [2, 16, 2, 2, 3, 1]];
        let setup = Setup { pages, shared_base: pages - 1, shared_count: 1, units };
        let mut machines = Machines::started(&setup);
        let start = |machine: &mut dyn Machine| [time(|| machine.start(black_box(&setup)))];
        let [times] = contest(&mut machines, rounds, start);
        line(&figure(pages as f64), &[times]);
    }
}

pub fn table(rounds: usize) -> Result<(), String> {
    let few = rounds.div_ceil(MIXED_SHARE);
    println!("The least of {rounds} rounds, of mixed rows of {few}.");
    mixed::lines(few);
    operation_lines(rounds);
    retire::lines(rounds)?;
    entry_lines(rounds);
    clearing_lines(rounds);
    start_lines(rounds);
    Ok(())
}
