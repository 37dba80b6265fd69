//! Writes a script while running its own machine, so that the writer can aim.

use std::fmt::Write;

use crate::machine::{Machine, Span, UnitNumbers};
use crate::operate::{Answer, Row};
use crate::script::Setup;

/// A small generator of numbers (splitmix64); the same seed gives the same run.
pub struct Rng(u64);

impl Rng {
    pub fn new(seed: u64) -> Self {
        Rng(seed)
    }

    pub fn next(&mut self) -> u64 {
        self.0 = self.0.wrapping_add(0x9E37_79B9_7F4A_7C15);
        let mut z = self.0;
        z = (z ^ (z >> 30)).wrapping_mul(0xBF58_476D_1CE4_E5B9);
        z = (z ^ (z >> 27)).wrapping_mul(0x94D0_49BB_1331_11EB);
        z ^ (z >> 31)
    }

    /// A number below `limit`, which isn't 0.
    pub fn below(&mut self, limit: u64) -> u64 {
        self.next() % limit
    }

    /// True about `percent` times in a hundred.
    pub fn chance(&mut self, percent: u64) -> bool {
        self.below(100) < percent
    }

    pub fn pick<T: Copy>(&mut self, choices: &[T]) -> Option<T> {
        if choices.is_empty() {
            return None;
        }
        Some(choices[self.below(choices.len() as u64) as usize])
    }
}

/// A script in the making and the machine that it would leave.
pub struct Author {
    pub text: String,
    pub machine: Machine,
    alive: bool,
}

impl Author {
    pub fn new() -> Self {
        Author { text: String::new(), machine: Machine::empty(), alive: false }
    }

    /// Goes on where another script has left a valid machine.
    pub fn resume(machine: Machine) -> Self {
        Author { text: String::new(), machine, alive: true }
    }

    pub fn note(&mut self, text: &str) {
        self.line(&format!("# {text}"));
    }

    pub fn line(&mut self, text: &str) {
        self.text.push_str(text);
        self.text.push('\n');
    }

    /// Opens a box and gives the answer of its start.
    pub fn open(&mut self, pages: u64, base: u64, count: u64, units: &[UnitNumbers]) -> u64 {
        self.line(&format!("box {pages} {base} {count}"));
        for unit in units {
            self.line(&format!("unit{}", join(unit)));
        }
        let setup = Setup { pages, shared: Span { base, count }, units: units.to_vec() };
        let (number, machine) = setup.start();
        self.machine = machine;
        self.alive = number == 0;
        number
    }

    /// Writes a row, zeros at its end left out, and applies it.
    pub fn row(&mut self, numbers: &[u64]) -> Answer {
        let mut row = Row::default();
        row[..numbers.len()].copy_from_slice(numbers);
        let used = row.iter().rposition(|&number| number != 0).map_or(1, |last| last + 1);
        let text = join(&row[..used]);
        self.row_as(&row, text.trim_start())
    }

    /// Writes a row in a given spelling and applies it.
    pub fn row_as(&mut self, row: &Row, spelling: &str) -> Answer {
        self.line(spelling);
        if self.alive {
            self.machine.apply(row)
        } else {
            Answer::refused(1)
        }
    }

    pub fn free(&mut self) {
        self.line("free");
    }

    /// Writes a row that must answer with `number`, by the paper's own words.
    pub fn expect(&mut self, number: u64, numbers: &[u64]) -> Answer {
        let answer = self.row(numbers);
        assert_eq!(answer.number, number, "row {numbers:?} of\n{}", self.text);
        answer
    }

    /// The same where the index of the lowest failing page is known too.
    pub fn expect_at(&mut self, number: u64, index: u64, numbers: &[u64]) {
        let answer = self.expect(number, numbers);
        assert_eq!(answer.index, index, "row {numbers:?} of\n{}", self.text);
    }

    /// The same where the count of dropped slots is known.
    pub fn expect_drops(&mut self, dropped: u64, numbers: &[u64]) {
        let answer = self.expect(0, numbers);
        assert_eq!(answer.dropped, dropped, "row {numbers:?} of\n{}", self.text);
    }

    /// The same for a read whose word is known.
    pub fn expect_word(&mut self, word: u64, numbers: &[u64]) {
        let answer = self.expect(0, numbers);
        assert_eq!(answer.word, word, "row {numbers:?} of\n{}", self.text);
    }
}

impl Default for Author {
    fn default() -> Self {
        Author::new()
    }
}

/// Numbers, each after a blank.
fn join(numbers: &[u64]) -> String {
    numbers.iter().fold(String::new(), |mut text, number| {
        write!(text, " {number}").expect("a string takes any text");
        text
    })
}
