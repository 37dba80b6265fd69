//! Whole logs out of the second program's generator, as they are and changed, read record by
//! record.

use second::author::Rng;
use second::generate::{go_on, single};
use second::log::{record, Reader};
use second::machine::{Machine, OPERATIONS};
use second::operate::{arguments, Row};
use second::script::Setup;
use tiligormis::{INSTRUCTION_BARRIER, RETIRE_VM};

use crate::differ::same;
use crate::log::Run;
use crate::pack::Difference;
use crate::trial::{trials, Step};

/// Rows of a log, each with its turn.
const LENGTHS: [u64; 6] = [20, 3, 120, 60, 1, 300];
/// Rows of one that has more bytes than two bytes can count.
const LONG: u64 = 6000;
/// How many bytes of a longer log are changed, one at a time, and at how many places it is cut.
const TRIES: usize = 24;

/// A box to be started, and rows that a log can hold.
pub struct Made {
    pub setup: Setup,
    pub rows: Vec<Row>,
}

impl Made {
    pub fn new(seed: u64, rows: u64) -> Self {
        let trial = trials(&single(seed, rows)).swap_remove(0);
        Made { rows: trial.steps.iter().filter_map(Step::row).collect(), setup: trial.setup }
    }

    pub fn long(seed: u64) -> Self {
        Made::new(seed, LONG)
    }

    /// The log of a turn, each turn another.
    fn of_turn(seed: u64, turn: u64) -> Self {
        Made::new(seed.wrapping_add(turn << 32), LENGTHS[turn as usize % LENGTHS.len()])
    }
}

/// Rows that go on from a machine.
pub fn following(seed: u64, rows: u64, machine: &Machine) -> Vec<Row> {
    // The reader of scripts wants a box first, and does not mind which.
    let script = "box 1 0 0\n".to_string() + &go_on(seed, rows, machine.clone());
    trials(&script)[0].steps.iter().filter_map(Step::row).collect()
}

/// The log of those rows that a log can hold.
pub fn log_of(rows: &[Row]) -> Vec<u8> {
    rows.iter().filter_map(|row| record(row).ok()).flatten().collect()
}

/// A log with one record of each kind.
fn of_every_kind(rng: &mut Rng) -> Vec<u8> {
    let row = |kind| std::array::from_fn(|place| if place == 0 { kind } else { rng.next() >> 32 });
    log_of(&(1..=OPERATIONS).map(row).collect::<Vec<Row>>())
}

/// Where the records of a log begin, up to the first that can't be read; the last is where it ends.
pub fn begins(log: &[u8]) -> Vec<usize> {
    let mut reader = Reader::new(log);
    let mut begins = vec![0];
    while let Ok(Some(_)) = reader.read() {
        begins.push(reader.place);
    }
    begins
}

/// Logs as they were made, read and written again; a short one from every place, and far past it.
pub fn made(run: &mut Run) -> Result<(), Difference> {
    let (seed, turns) = (run.seed, 0..run.count);
    let logs = turns.map(|turn| Made::of_turn(seed, turn)).chain([Made::long(seed)]);
    for Made { rows, .. } in logs {
        let log = log_of(&rows);
        run.read_on(&log, 0)?;
        written_again(run, &log, &rows)?;
        run.seen.thing("logs", 1);
    }
    let log = of_every_kind(&mut run.rng);
    let end = log.len() as u64;
    let far = [1 << 31, 1 << 32, 1 << 63, u64::MAX - 4, u64::MAX - 1, u64::MAX];
    (0..end + 5).chain(far).try_for_each(|place| run.read_on(&log, place))
}

/// What the library reads are the rows, with 0 past their arguments; what it writes then, the log.
fn written_again(run: &mut Run, log: &[u8], rows: &[Row]) -> Result<(), Difference> {
    let (mut from, mut to, mut row) = ([0], [0], Row::default());
    let mut again = vec![0; log.len()];
    for expected in rows {
        let count = arguments(expected[0]).map_or(0, <[_]>::len);
        let bare = std::array::from_fn(|at| if at <= count { expected[at] } else { 0 });
        (run.functions.read)(log, &mut from, &mut row);
        same("row of a made log", row, bare)?;
        (run.functions.write)(&row, &mut again, &mut to);
        same("place in a log written again", to, from)?;
    }
    run.seen.thing("records written again", rows.len());
    same("log written again", &again[..], log)
}

/// One byte changed: every byte of a short log into every other, some of longer ones.
pub fn turned(run: &mut Run) -> Result<(), Difference> {
    let mut log = of_every_kind(&mut run.rng);
    for (place, change) in (0..log.len()).flat_map(|at| (1..=255).map(move |by| (at, by))) {
        log[place] ^= change;
        run.read_on(&log, 0)?;
        log[place] ^= change;
    }
    for turn in 0..run.count {
        let mut log = log_of(&Made::of_turn(run.seed, turn).rows);
        for _ in 0..TRIES {
            let (place, old) = turn_byte(&mut log, &mut run.rng);
            run.read_on(&log, 0)?;
            log[place] = old;
        }
        run.seen.thing("longer logs", 1);
    }
    Ok(())
}

/// Another byte in a place of a log that has one; gives the place and the byte it had. Often it is
/// in a header, of which a log has less than of bodies.
fn turn_byte(log: &mut [u8], rng: &mut Rng) -> (usize, u8) {
    let begins = begins(log);
    let place = match rng.pick(&begins[..begins.len() - 1]) {
        Some(begin) if rng.chance(50) => begin + rng.below(4) as usize,
        _ => rng.below(log.len() as u64) as usize,
    };
    let old = log[place];
    log[place] = match rng.below(3) {
        0 => old ^ 1 << rng.below(8),
        1 => old.wrapping_add(1),
        _ => old ^ (1 + rng.below(255) as u8),
    };
    (place, old)
}

/// Cut off: short logs at every place, longer ones at some.
pub fn cut(run: &mut Run) -> Result<(), Difference> {
    let short = of_every_kind(&mut run.rng);
    (0..=short.len()).try_for_each(|end| run.read_on(&short[..end], 0))?;
    for turn in 0..run.count {
        let log = log_of(&Made::of_turn(run.seed, turn).rows);
        let places = log.len() as u64 + 1;
        let every = log.len() < 400;
        let ends: Vec<usize> = match every {
            true => (0..=log.len()).collect(),
            false => (0..TRIES).map(|_| run.rng.below(places) as usize).collect(),
        };
        ends.iter().try_for_each(|&end| run.read_on(&log[..end], 0))?;
        run.seen.thing(if every { "logs at every place" } else { "longer logs" }, 1);
    }
    Ok(())
}

/// Lengthened by one to five bytes, and by records that can't be read, with good ones behind them.
pub fn lengthened(run: &mut Run) -> Result<(), Difference> {
    for turn in 0..run.count {
        let log = log_of(&Made::of_turn(run.seed, turn).rows);
        let random: Vec<u8> = (0..5).map(|_| run.rng.next() as u8).collect();
        // The barrier is whole with four bytes, and a retire of that length is wrong.
        let [barrier, retire] =
            [INSTRUCTION_BARRIER, RETIRE_VM].map(|kind| [2, 0, kind as u8, 0, 2]);
        for more in [&[0; 5], &[255; 5], &[6, 0, 1, 0, 1], &barrier, &retire, &random[..]] {
            for count in 1..=more.len() {
                run.read_on(&[&log, &more[..count]].concat(), 0)?;
            }
        }
        let bad = bad_record(&mut run.rng, &log);
        run.read_on(&[&log[..], &bad].concat(), 0)?;
        run.read_on(&[&log[..], &bad, &log].concat(), 0)?;
        run.seen.thing("logs", 1);
    }
    Ok(())
}

/// A record of no kind or of another length than its kind has, with all the bytes that it claims;
/// those are good records, which nobody must come upon.
pub fn bad_record(rng: &mut Rng, good: &[u8]) -> Vec<u8> {
    let known = 1 + rng.below(OPERATIONS);
    let own = record(&std::array::from_fn(|at| if at == 0 { known } else { 0 }));
    let own = own.map_or(0, |bytes| bytes.len() as u64 - 2);
    let kinds = [0, OPERATIONS + 1, 255, 256, 256 + known, 0xFFFF];
    let lengths = [0, 1, 2, own - 1, own + 1, own + 4, own + 256, 600];
    let (length, kind) = match rng.chance(50) {
        true => (rng.pick(&lengths).unwrap_or(0), rng.pick(&kinds).unwrap_or(0)),
        // 2 is right for a kind without arguments.
        false => (rng.pick(&lengths).filter(|&length| length != own).unwrap_or(0), known),
    };
    let header = [(length as u16).to_le_bytes(), (kind as u16).to_le_bytes()].concat();
    let barrier = [2, 0, 25, 0];
    let body = good.iter().chain(barrier.iter().cycle()).take(length.max(2) as usize - 2);
    header.iter().chain(body).copied().collect()
}

/// A log as it is or changed in one way.
pub fn any_change(mut log: Vec<u8>, rng: &mut Rng) -> Vec<u8> {
    match rng.below(5) {
        0 if !log.is_empty() => drop(turn_byte(&mut log, rng)),
        1 => log.truncate(rng.below(log.len() as u64 + 1) as usize),
        2 => {
            let bad = bad_record(rng, &log);
            let begin = rng.pick(&begins(&log)).unwrap_or(0);
            log.splice(begin..begin, bad);
        }
        _ => {}
    }
    log
}
