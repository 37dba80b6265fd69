//! Changed states: both tests for validity must agree, every entry must refuse a state that is not
//! valid and leave it as it was, and one that is still valid must go on alike.

use std::collections::BTreeMap;
use std::process::ExitCode;

use second::author::Rng;
use second::machine::{Free, Lent, Machine, OPERATIONS, ROW_NUMBERS};
use second::operate::Row;
use second::script::Setup;
use second::valid::broken;
use tiligormis::{Answer, Owned, DATA_BARRIER, ENTRIES, PAIRS, SETS, SET_WORDS, STATE_NOT_VALID};

use crate::cases::{cases, Case, State};
use crate::couple::{after_refused_start, after_start, UNWRITTEN};
use crate::differ::{same, state as alike};
use crate::pack::Difference;
use crate::report::Report;
use crate::subject::{apply, Maker, Subject};
use crate::supply::Supply;

/// What is asked of every changed state.
#[derive(Clone, Copy, PartialEq, Eq, PartialOrd, Ord, Debug)]
pub enum Asked {
    Validity,
    Operation,
    Sequence,
    Free,
    Start,
}

const ASKED: [(Asked, &str); 5] = [
    (Asked::Validity, "damaged_validity_agrees"),
    (Asked::Operation, "damaged_one_operation"),
    (Asked::Sequence, "damaged_sequence"),
    (Asked::Free, "damaged_free_query"),
    (Asked::Start, "damaged_start_over"),
];

/// How many of the rows that come next a changed state is given.
const ROWS: usize = 8;
/// An operation that no state refuses but for not being valid, and unknown ones.
const BARE: [Row; 4] = [bare(DATA_BARRIER), bare(0), bare(OPERATIONS + 1), bare(u64::MAX)];

const fn bare(operation: u64) -> Row {
    let mut row = [0; ROW_NUMBERS];
    row[0] = operation;
    row
}

const REFUSED: Answer = Answer { number: STATE_NOT_VALID, index: 0, dropped: 0, word: 0 };

/// What a run found, the first of each kind, and how often each case gave a state that was valid
/// and one that was not.
#[derive(Default)]
pub struct Outcome {
    pub findings: BTreeMap<Asked, String>,
    pub made: Vec<(String, [u64; 2])>,
    pub states: u64,
}

impl Outcome {
    fn never_made(&self) -> Vec<&str> {
        let never = self.made.iter().filter(|(_, made)| *made == [0, 0]);
        never.map(|(name, _)| name.as_str()).collect()
    }

    fn totals(&self) -> [u64; 2] {
        [0, 1].map(|kind| self.made.iter().map(|(_, made)| made[kind]).sum())
    }
}

/// Case after case, each on another state, until `count` states were made.
pub fn all(seed: u64, count: u64, make: &Maker) -> Outcome {
    let (mut rng, mut supply) = (Rng::new(seed), Supply::new(seed));
    let cases = cases();
    let made = cases.iter().map(|case| (case.name.clone(), [0, 0])).collect();
    let mut outcome = Outcome { made, ..Outcome::default() };
    for (place, case) in cases.iter().enumerate().cycle() {
        if outcome.states >= count {
            break;
        }
        let Some(state) = case.of_some_state(&mut supply, &mut rng) else { continue };
        for (asked, _) in ASKED {
            let answer = ask(asked, &state, &supply.setup, &supply.coming(ROWS), make);
            if let Err(difference) = answer {
                let text = found(case, &state, &difference);
                let at = format!("state {} of seed {seed}: {text}", outcome.states);
                outcome.findings.entry(asked).or_insert(at);
            }
        }
        outcome.states += 1;
        outcome.made[place].1[usize::from(!state.valid)] += 1;
    }
    outcome
}

fn found(case: &Case, state: &State, difference: &Difference) -> String {
    let broken = state.second.as_ref().and_then(broken);
    let Difference { part, detail } = difference;
    format!("{}, clause broken in the second program {broken:?}\n{part}: {detail}", case.name)
}

/// Asks one thing of a box with the state: by these rows, or by a start with this setup.
pub fn ask(
    asked: Asked,
    state: &State,
    setup: &Setup,
    rows: &[Row],
    make: &Maker,
) -> Result<(), Difference> {
    let mut subject = make(state.owned.clone());
    match (asked, &state.second) {
        (Asked::Validity, _) => same("validity", subject.valid(), state.valid)?,
        (Asked::Start, _) => return start_over(&mut *subject, setup),
        (Asked::Free, Some(second)) => same("free query", subject.free(), second.free())?,
        (Asked::Free, None) => {
            let refused = Free { number: STATE_NOT_VALID, count: 0, lowest: None };
            same("free query", subject.free(), refused)?;
        }
        (Asked::Operation, Some(second)) if state.valid => {
            return goes_on_by_operations(&mut *subject, second, rows);
        }
        (Asked::Sequence, Some(second)) if state.valid => {
            return goes_on_by_sequence(&mut *subject, second, rows);
        }
        (Asked::Operation, _) => {
            for row in rows.iter().take(2).chain(&BARE) {
                same("answer", subject.operation(row), REFUSED)?;
                unchanged(&*subject, &state.owned)?;
            }
        }
        (Asked::Sequence, _) => refused_sequences(&mut *subject, rows)?,
    }
    unchanged(&*subject, &state.owned)
}

fn unchanged(subject: &dyn Subject, before: &Owned) -> Result<(), Difference> {
    match subject.owned() == before {
        true => Ok(()),
        false => Err(Difference::new("refused box", "it changed")),
    }
}

/// With rows and without, with room enough and too little: always 1, before 2.
fn refused_sequences(subject: &mut dyn Subject, rows: &[Row]) -> Result<(), Difference> {
    for (rows, room) in [(rows, rows.len() + 1), (&[], 1), (rows, 0)] {
        let mut room = vec![UNWRITTEN; room];
        same("sequence's number", subject.sequence(rows, &mut room), STATE_NOT_VALID)?;
        if room.iter().any(|answer| *answer != UNWRITTEN) {
            return Err(Difference::new("room of a refused sequence", "it was written"));
        }
    }
    Ok(())
}

/// A state that is still valid goes on as the second program's machine does.
fn goes_on_by_operations(
    subject: &mut dyn Subject,
    second: &Machine,
    rows: &[Row],
) -> Result<(), Difference> {
    let (mut second, units) = (second.clone(), subject.owned().machine.units);
    for row in rows {
        same("answer", subject.operation(row), apply(&mut second, true, row))?;
        alike(subject.owned(), &second, &units, None)?;
    }
    Ok(())
}

fn goes_on_by_sequence(
    subject: &mut dyn Subject,
    second: &Machine,
    rows: &[Row],
) -> Result<(), Difference> {
    let (mut second, units) = (second.clone(), subject.owned().machine.units);
    let answers: Vec<Answer> = rows.iter().map(|row| apply(&mut second, true, row)).collect();
    let mut room = vec![UNWRITTEN; rows.len()];
    same("sequence's number", subject.sequence(rows, &mut room), 0)?;
    same("sequence's answers", room, answers)?;
    alike(subject.owned(), &second, &units, None)
}

/// A start on the changed box: only lengths can make it fail.
fn start_over(subject: &mut dyn Subject, setup: &Setup) -> Result<(), Difference> {
    let before = subject.owned().clone();
    let lent = Lent {
        memory: before.memory.len() as u64,
        cpu_slots: before.cpu_cache.len() as u64,
        dma_slots: before.dma_cache.len() as u64,
    };
    let (number, second) = Machine::start(setup.pages, setup.shared, &setup.units, lent);
    let maps = [&before.cpu_map, &before.cpu_walker, &before.dma_map, &before.dma_walker];
    // The second program has no lengths of these.
    let right = before.sets.len() == SETS * SET_WORDS
        && before.pairs.len() == PAIRS
        && maps.iter().all(|map| map.len() == ENTRIES);
    let number = if right { number } else { STATE_NOT_VALID };
    same("start's number", subject.start(setup), number)?;
    match number {
        0 => after_start(subject.owned(), &second),
        _ => after_refused_start(subject.owned(), &before),
    }
}

/// Runs the comparison, prints how often each case was made, and the checks.
pub fn report(seed: u64, count: u64, make: &Maker) -> ExitCode {
    let mut report = Report::new();
    let outcome = all(seed, count, make);
    println!("changed states by case: still valid, not valid");
    for (name, [valid, invalid]) in &outcome.made {
        println!("{valid:>6} {invalid:>6}  {name}");
    }
    let [valid, invalid] = outcome.totals();
    println!("{valid:>6} {invalid:>6}  all {} states", outcome.states);
    for (asked, name) in ASKED {
        report.check(name, outcome.findings.get(&asked).cloned().map_or(Ok(()), Err));
    }
    let never = outcome.never_made();
    let failed = |why: String| if why.is_empty() { Ok(()) } else { Err(why) };
    report.check("damaged_every_case_was_made", failed(never.join("\n")));
    report.check(
        "damaged_both_verdicts_occur",
        match valid > 0 && invalid > 0 {
            true => Ok(()),
            false => Err(format!("{valid} valid, {invalid} not")),
        },
    );
    report.finish()
}
