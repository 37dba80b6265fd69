//! All machines held to the same answers, and the mixed rows: both from the generator of the second
//! program.

use face::{Row, Setup};
use second::generate;
use second::script::{self, Event, Events};

use crate::contest::{Machines, MACHINES, NAMES, ROWS};

/// Where a comparison stands.
struct Comparison {
    machines: Machines,
    /// Nothing before the first box, and after a start that is refused.
    running: bool,
    rows: Vec<Row>,
    compared: usize,
}

fn setup_of(told: &script::Setup) -> Setup {
    Setup {
        pages: told.pages as usize,
        shared_base: told.shared.base as usize,
        shared_count: told.shared.count as usize,
        units: told.units.clone(),
    }
}

impl Comparison {
    fn start(&mut self, setup: &Setup) -> Result<(), String> {
        self.machines = Machines::new(setup.pages);
        let numbers = self.machines.each().map(|machine| machine.start(setup));
        self.running = numbers[0] == 0;
        match numbers.iter().all(|&number| number == numbers[0]) {
            true => Ok(()),
            false => Err(format!("start {setup:?}: {NAMES} answer {numbers:?}")),
        }
    }

    /// Carries out the rows that wait and compares all four numbers of every answer.
    fn flush(&mut self) -> Result<(), String> {
        let rows = std::mem::take(&mut self.rows);
        if !self.running {
            return Ok(());
        }
        if self.machines.each().map(|machine| machine.sequence(&rows)) != [0; MACHINES] {
            return Err("a sequence is refused as a whole".to_string());
        }
        for (k, row) in rows.iter().enumerate() {
            let answers = self.machines.each().map(|machine| machine.answer(k));
            if answers != [answers[0]; MACHINES] {
                return Err(format!("row {row:?}: {NAMES} answer {answers:?}"));
            }
        }
        self.compared += rows.len();
        Ok(())
    }

    fn event(&mut self, event: Event) -> Result<(), String> {
        match event {
            Event::Row(row) => {
                self.rows.push(row);
                if self.rows.len() < ROWS {
                    return Ok(());
                }
                self.flush()
            }
            Event::Start(told) => {
                self.flush()?;
                self.start(&setup_of(&told))
            }
            Event::Free | Event::Bad => self.flush(),
        }
    }
}

/// How many rows were compared, or the first at which the answers differ.
pub fn compare(seed: u64, rows: u64) -> Result<usize, String> {
    let mut comparison =
        Comparison { machines: Machines::new(1), running: false, rows: Vec::new(), compared: 0 };
    for (_, text) in generate::suite(seed, rows) {
        for event in Events::new(text.as_bytes()) {
            let (_, event) = event.map_err(|error| error.to_string())?;
            comparison.event(event)?;
        }
        comparison.flush()?;
    }
    Ok(comparison.compared)
}

/// The rows of a random box.
fn random_box(seed: u64, rows: u64) -> (Setup, Vec<Row>) {
    let text = generate::generate(seed, rows);
    let mut setup = None;
    let mut all = Vec::new();
    for (_, event) in Events::new(text.as_bytes()).flatten() {
        match event {
            Event::Start(told) => setup = Some(setup_of(&told)),
            Event::Row(row) => all.push(row),
            Event::Free | Event::Bad => {}
        }
    }
    (setup.expect("a random box starts"), all)
}

/// Ten thousand mixed rows: of the first random box, by seed, with so many pages.
pub fn mixed(pages: usize) -> (Setup, Vec<Row>) {
    let seed = (1..).find(|&seed| random_box(seed, 1).0.pages == pages).expect("some box has them");
    random_box(seed, ROWS as u64)
}
