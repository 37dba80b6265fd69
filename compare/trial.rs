//! A trial: one box and what is asked of it, out of a script of the second program.

use std::fmt;

use second::operate::Row;
use second::script::{Event, Events, Setup};

#[derive(Clone, Copy, PartialEq, Eq, Debug)]
pub enum Step {
    Row(Row),
    Free,
}

impl Step {
    pub fn row(&self) -> Option<Row> {
        match self {
            Step::Row(row) => Some(*row),
            Step::Free => None,
        }
    }
}

#[derive(Clone, Debug)]
pub struct Trial {
    pub setup: Setup,
    pub steps: Vec<Step>,
}

/// The trials of a script, in order.
pub fn trials(script: &str) -> Vec<Trial> {
    let mut trials: Vec<Trial> = Vec::new();
    for event in Events::new(script.as_bytes()) {
        let (line, event) = event.expect("a string can be read");
        let step = match event {
            Event::Start(setup) => {
                trials.push(Trial { setup, steps: Vec::new() });
                continue;
            }
            Event::Row(row) => Step::Row(row),
            Event::Free => Step::Free,
            Event::Bad => panic!("line {line} of a generated script can't be read"),
        };
        trials.last_mut().expect("a box comes first").steps.push(step);
    }
    trials
}

/// The trial as a script, to be run by hand.
impl fmt::Display for Trial {
    fn fmt(&self, f: &mut fmt::Formatter) -> fmt::Result {
        let words = |numbers: &[u64]| numbers.iter().map(|n| format!(" {n}")).collect::<String>();
        let Setup { pages, shared, units } = &self.setup;
        writeln!(f, "box {pages} {} {}", shared.base, shared.count)?;
        for unit in units {
            writeln!(f, "unit{}", words(unit))?;
        }
        for step in &self.steps {
            match step {
                Step::Row(row) => writeln!(f, "{}", words(row).trim_start())?,
                Step::Free => writeln!(f, "free")?,
            }
        }
        Ok(())
    }
}

/// A trial with as few steps and units as a greedy search finds for which `fails` still holds.
pub fn shrink(trial: &Trial, fails: impl Fn(&Trial) -> bool) -> Trial {
    let mut small = trial.clone();
    let mut length = small.steps.len();
    while length > 0 {
        let mut begin = 0;
        while begin < small.steps.len() {
            let mut without = small.clone();
            without.steps.drain(begin..(begin + length).min(small.steps.len()));
            match fails(&without) {
                true => small = without,
                false => begin += length,
            }
        }
        length /= 2;
    }
    shrink_units(small, fails)
}

fn shrink_units(mut small: Trial, fails: impl Fn(&Trial) -> bool) -> Trial {
    for place in (0..small.setup.units.len()).rev() {
        let mut without = small.clone();
        without.setup.units.remove(place);
        if fails(&without) {
            small = without;
        }
    }
    small
}
