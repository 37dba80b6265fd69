//! The operation log: the library's three functions against the second program's.

use std::collections::BTreeMap;
use std::fmt;
use std::process::ExitCode;

use second::author::Rng;
use second::machine::ROW_NUMBERS;

use crate::calls::{second_read, second_write, Functions, C, RUST};
use crate::differ::same;
use crate::pack::Difference;
use crate::report::Report;
use crate::tally::{list, Tally};
use crate::{logs, records, replays};

/// What one check compared and found alike.
#[derive(Clone, Default, Debug)]
pub struct Seen {
    /// Calls by the number that they gave.
    pub calls: BTreeMap<u64, u64>,
    /// Other things by name.
    pub things: BTreeMap<&'static str, u64>,
    /// What replays carried out.
    pub replayed: Tally,
}

impl Seen {
    pub fn call(&mut self, number: u64) {
        *self.calls.entry(number).or_default() += 1;
    }

    pub fn thing(&mut self, name: &'static str, count: usize) {
        *self.things.entry(name).or_default() += count as u64;
    }
}

impl fmt::Display for Seen {
    fn fmt(&self, f: &mut fmt::Formatter) -> fmt::Result {
        let calls: u64 = self.calls.values().sum();
        write!(f, "{calls} calls, number:times  {}", list(&self.calls))?;
        for (name, count) in &self.things {
            write!(f, "; {count} {name}")?;
        }
        Ok(())
    }
}

/// A check under way.
pub struct Run<'a> {
    pub functions: &'a Functions,
    pub seed: u64,
    /// How many logs, boxes or states it takes where they are drawn at random.
    pub count: u64,
    pub rng: Rng,
    pub seen: Seen,
}

/// Stands in a row's room that nobody may write, or that a read must overwrite.
const UNREAD: u64 = 77;
/// So many bytes on either side of a log that is lent to be written are looked at too.
const EDGE: usize = 16;

/// A log of `length` bytes, all different from their neighbours, between its edges.
fn buffer(length: usize) -> Vec<u8> {
    (0..length + 2 * EDGE).map(|place| place as u8 ^ 0xA5).collect()
}

fn lent(buffer: &mut [u8]) -> &mut [u8] {
    let end = buffer.len() - EDGE;
    &mut buffer[EDGE..end]
}

impl<'a> Run<'a> {
    pub fn new(functions: &'a Functions, seed: u64, count: u64) -> Self {
        Run { functions, seed, count, rng: Rng::new(seed), seen: Seen::default() }
    }

    /// A write into a log of `length` bytes: number, place and every byte, those around it too.
    pub fn write(&mut self, row: &[u64], length: usize, place: &[u64]) -> Result<(), Difference> {
        let mut library = (buffer(length), place.to_vec());
        let mut second = library.clone();
        let answer = (self.functions.write)(row, lent(&mut library.0), &mut library.1);
        let number = second_write(row, lent(&mut second.0), &mut second.1);
        let alike = || {
            same("write's number", answer, number)?;
            same("write's place", &library.1, &second.1)?;
            same("written bytes", &library.0, &second.0)
        };
        alike().map_err(|difference| {
            difference.at(format_args!("row {row:?}, {length} bytes, place {place:?}"))
        })?;
        self.seen.call(number);
        Ok(())
    }

    /// A read into rooms of these lengths: number, place and row. Gives the number.
    pub fn read_into(
        &mut self,
        log: &[u8],
        place: &mut [u64],
        row: &mut [u64],
    ) -> Result<u64, Difference> {
        row.fill(UNREAD);
        let (from, mut library) = (place.first().copied(), (place.to_vec(), row.to_vec()));
        let answer = (self.functions.read)(log, &mut library.0, &mut library.1);
        let number = second_read(log, place, row);
        let alike = || {
            same("read's number", answer, number)?;
            same("read's place", &library.0[..], place)?;
            same("row", &library.1[..], row)
        };
        alike().map_err(|difference| {
            let from = from.unwrap_or(0);
            let left = log.get(from as usize..).unwrap_or_default();
            let (length, left) = (log.len(), &left[..left.len().min(32)]);
            difference.at(format_args!("{length} bytes, place {from}, there {left:02x?}"))
        })?;
        self.seen.call(number);
        Ok(number)
    }

    /// Record by record from a place on, until none is read.
    pub fn read_on(&mut self, log: &[u8], place: u64) -> Result<(), Difference> {
        let mut place = [place];
        loop {
            let from = place;
            self.read_into(log, &mut place, &mut [UNREAD; ROW_NUMBERS])?;
            if place == from {
                return Ok(());
            }
        }
    }
}

pub type Check = fn(&mut Run) -> Result<(), Difference>;

/// The checks, with the numbers that each must have met.
pub const CHECKS: [(&str, Check, &[u64]); 14] = [
    ("rows_at_every_limit", records::limits, &[0, 21, 23]),
    ("every_place_of_a_buffer", records::buffers, &[0, 21, 23]),
    ("every_header", records::headers, &[0, 20, 21, 22]),
    ("rooms_of_other_lengths", records::lengths, &[1]),
    ("as_made", logs::made, &[0]),
    ("one_byte_changed", logs::turned, &[0, 20, 21, 22]),
    ("cut", logs::cut, &[0, 20]),
    ("lengthened", logs::lengthened, &[0, 20, 21, 22]),
    ("replay", replays::whole, &[0, 20, 21, 22]),
    ("replay_in_pieces", replays::pieces, &[0, 20, 21, 22]),
    ("replay_room_for_answers", replays::answers, &[0, 20, 21, 22]),
    ("replay_rooms_of_other_lengths", replays::lengths, &[1]),
    ("replay_on_changed_states", replays::changed, &[0, 1]),
    ("replay_before_an_unreadable_record", replays::unreadable, &[20, 21, 22]),
];

/// The numbers that were never met, and operations that no replay carried out with success.
pub fn missing(all: &[(&str, &[u64], Seen)]) -> Vec<String> {
    let mut missing = Vec::new();
    for (name, numbers, seen) in all {
        let never = numbers.iter().filter(|number| !seen.calls.contains_key(number));
        missing.extend(never.map(|number| format!("{number} in {name}")));
    }
    let accepted = |operation| {
        all.iter().any(|(_, _, seen)| seen.replayed.answers.contains_key(&(operation, 0)))
    };
    let never = (1..=second::machine::OPERATIONS).filter(|&operation| !accepted(operation));
    missing.extend(never.map(|operation| format!("a replayed operation {operation}")));
    missing
}

/// Runs every check, as C calls the functions and through the Rust crate.
pub fn report(seed: u64, count: u64) -> ExitCode {
    let mut report = Report::new();
    let mut all = Vec::new();
    let mut checks = Vec::new();
    for (functions, seed) in [(C, seed), (RUST, seed.wrapping_add(1 << 48))] {
        for (name, check, numbers) in CHECKS {
            let mut run = Run::new(&functions, seed, count);
            let outcome = check(&mut run).map_err(|difference| {
                format!("seed {seed}, {}: {}", difference.part, difference.detail)
            });
            println!("{name}, {}: {}", functions.name, run.seen);
            all.push((name, numbers, run.seen));
            checks.push((format!("log_{name}_{}", functions.name), outcome));
        }
    }
    for (name, outcome) in checks {
        report.check(&name, outcome);
    }
    let missing = missing(&all);
    let missing = if missing.is_empty() { Ok(()) } else { Err(missing.join("\n")) };
    report.check("log_every_number_was_seen", missing);
    report.finish()
}
