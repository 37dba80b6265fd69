//! The comparison row by row, over scripts from fixed seeds.

use std::collections::BTreeMap;
use std::process::ExitCode;

use second::generate::{generate_of_size, suite};
use second::machine::PAGES;

use crate::couple::{run, Check, Finding};
use crate::report::Report;
use crate::subject::Maker;
use crate::tally::Tally;
use crate::trial::{shrink, trials, Trial};

/// Sizes of the boxes beyond the suite's, each with its turn.
const SIZES: [u64; 20] =
    [8, 1, 64, 2, PAGES, 3, 65, 16, 1000, 7, 63, 17, 128, 4, 512, 31, PAGES - 1, 9, 300, 24];
/// Rows of a box, each with its turn; the long ones bring their tables to the brim.
const LENGTHS: [u64; 7] = [400, 3000, 700, 1500, 8000, 200, 4000];

/// What a run found, the first of each kind, and what it saw.
#[derive(Default)]
pub struct Outcome {
    pub tally: Tally,
    pub findings: BTreeMap<Check, (Trial, Finding)>,
}

/// Runs the trials of a script; each ends at its first difference.
pub fn compare(script: &str, seed: u64, make: &Maker, outcome: &mut Outcome) {
    for (place, trial) in trials(script).into_iter().enumerate() {
        let seed = seed.wrapping_add(place as u64);
        if let Err(finding) = run(&trial, seed, make, &mut outcome.tally) {
            outcome.findings.entry(finding.check).or_insert_with(|| smallest(&trial, seed, make));
        }
    }
}

/// The smallest trial that shows a difference of the same kind in the same part.
fn smallest(trial: &Trial, seed: u64, make: &Maker) -> (Trial, Finding) {
    let found = |trial: &Trial| run(trial, seed, make, &mut Tally::default()).err();
    let first = found(trial).expect("a run from one seed goes the same way again");
    let alike = |other: Finding| {
        other.check == first.check && other.difference.part == first.difference.part
    };
    let small = shrink(trial, |trial| found(trial).is_some_and(alike));
    let finding = found(&small).expect("what was kept still differs");
    (small, finding)
}

/// The suite of the second program and then boxes of many sizes, until `rows` rows were compared.
pub fn all(seed: u64, rows: u64, make: &Maker) -> Outcome {
    let mut outcome = Outcome::default();
    for (place, (_, script)) in suite(seed, rows / 5).into_iter().enumerate() {
        compare(&script, seed.wrapping_add(place as u64), make, &mut outcome);
    }
    for turn in 0.. {
        if outcome.tally.rows >= rows || !outcome.findings.is_empty() {
            break;
        }
        let (pages, length) = (SIZES[turn % SIZES.len()], LENGTHS[turn % LENGTHS.len()]);
        let own = seed.wrapping_add((turn as u64 + 1) << 40);
        compare(&generate_of_size(own, pages, length), own, make, &mut outcome);
    }
    outcome
}

/// Runs the comparison, prints what it saw, and its checks.
pub fn report(seed: u64, rows: u64, make: &Maker) -> ExitCode {
    let mut report = Report::new();
    let outcome = all(seed, rows, make);
    print!("{}", outcome.tally);
    let checks = [
        ("rows_start", Check::Start),
        ("rows_every_answer_and_state", Check::Row),
        ("rows_batches_of_the_sequence_entry", Check::Batch),
        ("rows_free_queries", Check::Free),
        ("rows_validity", Check::Validity),
    ];
    for (name, check) in checks {
        report.check(name, outcome.findings.get(&check).map_or(Ok(()), shown));
    }
    report.check(
        "rows_every_listed_answer_was_seen",
        match outcome.tally.missing() {
            missing if missing.is_empty() => Ok(()),
            missing => Err(missing.join("\n")),
        },
    );
    report.check(
        "rows_as_many_as_asked_for",
        match outcome.tally.rows {
            seen if seen >= rows => Ok(()),
            seen => Err(format!("{seen} of {rows}")),
        },
    );
    report.finish()
}

fn shown((trial, finding): &(Trial, Finding)) -> Result<(), String> {
    let Finding { step, difference, .. } = finding;
    Err(format!("step {step}, {}: {}\n{trial}", difference.part, difference.detail))
}
