//! States that random rows reach in the second program, with the rows that come next.

use second::author::Rng;
use second::generate::generate_of_size;
use second::machine::{Machine, PAGES};
use second::operate::Row;
use second::script::Setup;

use crate::trial::{trials, Step};

/// Sizes and rows of the boxes, each with its turn; the long ones have full tables.
const SIZES: [u64; 12] = [8, 3, 64, 1, 16, 65, 2, PAGES, 24, 63, 1000, 12];
const LENGTHS: [u64; 5] = [900, 300, 3600, 600, 1500];

pub struct Supply {
    seed: u64,
    turn: usize,
    pub setup: Setup,
    pub machine: Machine,
    /// The rows that come next, the last first.
    rows: Vec<Row>,
}

impl Supply {
    pub fn new(seed: u64) -> Self {
        let (setup, machine, rows) = open(seed, 0);
        Supply { seed, turn: 0, setup, machine, rows }
    }

    /// Goes on to another state, of the next box where the rows are over.
    pub fn advance(&mut self, rng: &mut Rng) {
        for _ in 0..1 + rng.below(200) {
            let Some(row) = self.rows.pop() else { break };
            self.machine.apply(&row);
        }
        if self.rows.is_empty() {
            self.turn += 1;
            (self.setup, self.machine, self.rows) = open(self.seed, self.turn);
        }
    }

    /// Up to `count` of the rows that come next.
    pub fn coming(&self, count: usize) -> Vec<Row> {
        self.rows.iter().rev().take(count).copied().collect()
    }
}

fn open(seed: u64, turn: usize) -> (Setup, Machine, Vec<Row>) {
    let (pages, length) = (SIZES[turn % SIZES.len()], LENGTHS[turn % LENGTHS.len()]);
    let script = generate_of_size(seed.wrapping_add((turn as u64) << 40), pages, length);
    let trial = trials(&script).swap_remove(0);
    let (number, machine) = trial.setup.start();
    assert_eq!(number, 0, "a generated box starts");
    let rows = trial.steps.iter().rev().filter_map(Step::row).collect();
    (trial.setup, machine, rows)
}
