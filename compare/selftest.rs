//! Breaks the comparison on purpose: a comparison that can't fail says nothing.

use std::process::ExitCode;

use second::author::Rng;
use second::generate::generate_of_size;
use second::machine::{Machine, IDLE, PAGES, SLOTS};
use second::operate::Row;
use tiligormis::{fill_slot, Owned, Refusal};

use crate::bits::PARTS;
use crate::cases::cases;
use crate::couple::{run, Check, Finding};
use crate::damaged::{self, Asked};
use crate::differ::state;
use crate::flaws::{Flaw, Flawed, Place, ANSWERS, DAMAGED, RETIRED, TABLES};
use crate::log::{self, Run, Seen, CHECKS};
use crate::logflaws::{LogFlaw, READERS, REPLAYS, WRITERS};
use crate::pack::pack;
use crate::report::Report;
use crate::rows::{compare, Outcome};
use crate::slots::{self, Functions, LIBRARY};
use crate::subject::{library, Library, Subject};
use crate::supply::Supply;
use crate::tally::Tally;
use crate::trial::{trials, Step, Trial};

/// How many random logs and boxes must be enough to find a flaw of a function over logs.
const LOGS: u64 = 30;

/// Brings something into every table; each of its rows is accepted.
const RICH: &str = "
    box 6 5 1
    unit 1 16 0 2 3 3
    unit 2 16 2 1 1 1
    unit 1 32 2 1 3 2
    1 1\n1 2\n1 3
    11 1 16 0 2 3\n13 1 16 0 2 3\n3 2 4
    5 1 2 0\n5 1 3 1
    7 2 40 0 1 9\n8 2 8 5 3 1
    15 0 1\n15 1 2\n16 0 1\n16 2 2
    17 0 16\n17 1 40\n18 0 17\n18 2 8
    23 0 16 0 5\n24 0 17 511 7
";

/// The same, then barriers, at which flaws show, a page of the pool held for DMA below one that is free, a query, a VM that has
/// left its ports retired, and a start that is refused.
fn script() -> String {
    let barriers = "25\n".repeat(400);
    let free = "13 1 32 2 1 3\nfree\n";
    let retired = format!("24 0 32 0 7\n15 0 {IDLE}\n16 0 {IDLE}\n27 1\n");
    format!("{RICH}{barriers}{free}{retired}box 8 0 9\n1 1\n1 2\n")
}

fn only_trial(script: &str) -> Trial {
    trials(script).swap_remove(0)
}

fn flawed(place: Place) -> impl Fn(Owned) -> Box<dyn Subject> {
    move |owned| Box::new(Flawed { library: Library { owned }, place })
}

fn expect(holds: bool, otherwise: impl Into<String>) -> Result<(), String> {
    match holds {
        true => Ok(()),
        false => Err(otherwise.into()),
    }
}

/// The flaw is found by its check and in its part.
fn found(&(_, check, part, place): &Flaw<Check>) -> Result<(), String> {
    let mut outcome = Outcome::default();
    compare(&script(), 1, &flawed(place), &mut outcome);
    match outcome.findings.get(&check) {
        Some((_, finding)) if finding.difference.part == part => Ok(()),
        Some((_, finding)) => Err(format!("elsewhere: {:?}", finding.difference)),
        None => Err("not found".to_string()),
    }
}

/// The same for a flaw that some changed state brings to light.
fn found_in_damaged(&(_, asked, part, place): &Flaw<Asked>) -> Result<(), String> {
    let (machine, trial, mut rng) = (rich_machine(), only_trial(RICH), Rng::new(1));
    let rows: Vec<Row> = trial.steps.iter().filter_map(Step::row).collect();
    for case in cases() {
        let Some(changed) = (case.change)(&machine, &mut rng) else { continue };
        match damaged::ask(asked, &changed, &trial.setup, &rows, &flawed(place)) {
            Err(difference) if difference.part == part => return Ok(()),
            _ => continue,
        }
    }
    Err("not found".to_string())
}

/// And the whole run over damaged states tells of it.
fn found_by_the_damaged_run() -> Result<(), String> {
    let outcome = damaged::all(1, 20, &flawed(Place::Valid(|valid| !valid)));
    expect(outcome.findings.contains_key(&Asked::Validity), "not found")
}

/// The library without a flaw shows nothing of all this.
fn no_flaw_no_finding() -> Result<(), String> {
    let mut outcome = Outcome::default();
    compare(&script(), 1, &library, &mut outcome);
    expect(outcome.findings.is_empty(), "a difference without a flaw")
}

/// What goes wrong in one row is found at that row, not later.
fn found_at_once() -> Result<(), String> {
    let trial = only_trial(&script());
    let maps = |step: &Step| matches!(step, Step::Row([8, ..]));
    let place = Place::Row(|owned, row, _| owned.machine.dma_hand ^= u64::from(row[0] == 8));
    let finding = run(&trial, 1, &flawed(place), &mut Tally::default()).err();
    let step = finding.map(|finding| finding.step);
    expect(step.is_some() && step == trial.steps.iter().position(maps), format!("{step:?}"))
}

/// A page that no row touches is looked at in its turn, and with all others after 1,000 rows.
fn far_memory() -> Result<(), String> {
    let trial = only_trial(&(format!("box {PAGES} 0 0\n") + &"25\n".repeat(1020)));
    let step = |place| match run(&trial, 1, &flawed(place), &mut Tally::default()) {
        Err(Finding { check: Check::Row, step, .. }) => Ok(step),
        other => Err(format!("{other:?}")),
    };
    let in_turn = step(Place::Operation(|owned| owned.memory[Machine::address(700, 0)] = 9))?;
    expect(in_turn == 699, format!("page 700 was looked at in step {in_turn}"))?;
    let whole = step(Place::Operation(|owned| owned.memory[Machine::address(1010, 0)] = 9))?;
    expect(whole == 999, format!("memory was looked at whole in step {whole}"))
}

fn rich_machine() -> Machine {
    let trial = only_trial(RICH);
    let (_, mut machine) = trial.setup.start();
    for step in &trial.steps {
        let Step::Row(row) = step else { continue };
        assert_eq!(machine.apply(row).number, 0, "{row:?}");
    }
    machine
}

/// Each bit of header and tables, turned, is a difference, and so is each word of memory.
fn every_bit() -> Result<(), String> {
    let machine = rich_machine();
    let mut owned = pack(&machine).ok_or("the machine can't be packed")?;
    let units = owned.machine.units;
    let alike = |owned: &Owned| state(owned, &machine, &units, None);
    alike(&owned).map_err(|difference| format!("{difference:?}"))?;
    for (part, words, turn) in PARTS {
        for (place, bit) in (0..words).flat_map(|place| (0..64).map(move |bit| (place, bit))) {
            turn(&mut owned, place, bit);
            expect(alike(&owned).is_err(), format!("{part}: word {place}, bit {bit}"))?;
            turn(&mut owned, place, bit);
        }
    }
    for place in 0..owned.memory.len() {
        owned.memory[place] ^= 1 << (place % 64);
        expect(alike(&owned).is_err(), format!("memory: word {place}"))?;
        owned.memory[place] ^= 1 << (place % 64);
    }
    Ok(())
}

/// A changed state is a difference exactly where the second program's machine has changed.
fn every_case() -> Result<(), String> {
    let (mut rng, mut supply) = (Rng::new(2), Supply::new(2));
    for case in cases() {
        let Some(changed) = case.of_some_state(&mut supply, &mut rng) else {
            return Err(format!("{} was never made", case.name));
        };
        let same = changed.second.as_ref() == Some(&supply.machine);
        let units = changed.owned.machine.units;
        let alike = state(&changed.owned, &supply.machine, &units, None).is_ok();
        expect(alike == same, format!("{}: the same {same}, found so {alike}", case.name))?;
        if let (Some(second), true) = (&changed.second, changed.valid) {
            let alike = state(&changed.owned, second, &units, None);
            alike.map_err(|difference| format!("{}: {difference:?}", case.name))?;
        }
    }
    Ok(())
}

/// A library that refuses to share: the smallest script that shows it has four rows.
fn smallest_script() -> Result<(), String> {
    let place = Place::Row(|_, row, answer| {
        if row[0] == tiligormis::SHARE_PAGE && answer.number == 0 {
            answer.number = tiligormis::NO_ROOM;
        }
    });
    let mut outcome = Outcome::default();
    compare(&generate_of_size(3, 8, 700), 3, &flawed(place), &mut outcome);
    let (trial, _) = outcome.findings.get(&Check::Row).ok_or("not found")?;
    expect(trial.steps.len() == 4, trial.to_string())
}

/// Each of the functions over slots, wrong in one way.
fn slot_functions() -> Result<(), String> {
    let flaws: [(&str, Functions); 4] = [
        ("found slot", Functions { find: |_, _, _, _| None, ..LIBRARY }),
        (
            "fill's number",
            Functions {
                fill: |slots, place, held| fill_slot(slots, place, held).or(Ok(())),
                ..LIBRARY
            },
        ),
        ("empty's number", Functions { empty: |_, _| Err(Refusal::OutOfRange), ..LIBRARY }),
        (
            "slots",
            Functions {
                empty: |_, place| (place < SLOTS).then_some(()).ok_or(Refusal::OutOfRange),
                ..LIBRARY
            },
        ),
    ];
    for (part, functions) in flaws {
        let finding = slots::all(1, 5000, &functions).err();
        expect(finding.is_some_and(|finding| finding.part == part), part)?;
    }
    Ok(())
}

/// A flaw of a function over logs is found by its check and in its part.
fn found_in_log(&(_, name, part, functions): &LogFlaw) -> Result<(), String> {
    let (_, check, _) = CHECKS.iter().find(|check| check.0 == name).ok_or("no such check")?;
    match check(&mut Run::new(&functions, 1, LOGS)) {
        Err(difference) if difference.part == part => Ok(()),
        Err(difference) => Err(format!("elsewhere: {difference:?}")),
        Ok(()) => Err("not found".to_string()),
    }
}

/// So is a number that no log has given, and an operation that none has carried out.
fn missing_of_logs() -> Result<(), String> {
    let mut seen = Seen::default();
    seen.call(0);
    seen.replayed.answer(5, 0);
    seen.replayed.answer(6, 2);
    let missing = log::missing(&[("cut", &[0, 20], seen)]);
    let listed = |line: &str| missing.iter().any(|other| other == line);
    let right = listed("20 in cut") && listed("a replayed operation 6");
    let wrong = listed("0 in cut") || listed("a replayed operation 5");
    expect(right && !wrong, missing.join(", "))
}

/// What was not seen is listed.
fn missing_answers() -> Result<(), String> {
    let mut outcome = Outcome::default();
    compare(&script(), 1, &library, &mut outcome);
    let missing = outcome.tally.missing();
    let listed = |answer: &str| missing.iter().any(|line| line == answer);
    expect(listed("operation 4 answers 11"), "4 with 11 was not seen and is not listed")?;
    expect(!listed("operation 5 answers 0"), "5 with 0 was seen and is listed")
}

pub fn report() -> ExitCode {
    let mut report = Report::new();
    let checks: [(&str, fn() -> Result<(), String>); 10] = [
        ("no_flaw_no_finding", no_flaw_no_finding),
        ("every_bit_of_a_box", every_bit),
        ("every_case_of_damage", every_case),
        ("found_at_its_row", found_at_once),
        ("memory_that_no_row_touches", far_memory),
        ("smallest_script", smallest_script),
        ("missing_answers", missing_answers),
        ("damaged_run", found_by_the_damaged_run),
        ("slot_functions", slot_functions),
        ("missing_of_logs", missing_of_logs),
    ];
    for (name, check) in checks {
        report.check(&format!("self_test_{name}"), check());
    }
    for flaw in ANSWERS {
        report.check(&format!("self_test_answers_{}", flaw.0), found(flaw));
    }
    for &(name, part, table) in TABLES {
        let flaw = (name, Check::Row, part, Place::Table(table));
        report.check(&format!("self_test_tables_{name}"), found(&flaw));
    }
    for flaw in RETIRED {
        report.check(&format!("self_test_retired_{}", flaw.0), found(flaw));
    }
    for flaw in DAMAGED {
        report.check(&format!("self_test_damaged_{}", flaw.0), found_in_damaged(flaw));
    }
    for (kind, flaws) in [("write", WRITERS), ("read", READERS), ("replay", REPLAYS)] {
        for flaw in flaws {
            report.check(&format!("self_test_log_{kind}_{}", flaw.0), found_in_log(flaw));
        }
    }
    report.finish()
}
