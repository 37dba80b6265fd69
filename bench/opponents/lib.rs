//! Two Rust versions of the machine against which the library is measured, each as one writes it who
//! wants it fast. Both own their state and trust it: they rely on all that makes a state valid
//! (docs/MACHINE.md, section 4) and judge nothing.

mod bits;
mod bounded;
mod hash;
mod idiomatic;
mod rows;
mod table;

use face::{Machine, Numbers, Row, Setup, ANSWER_NUMBERS};
use rows::Operations;

/// A version of the machine with room for its answers.
struct Roomed<M> {
    machine: M,
    answers: Vec<Numbers>,
}

impl<M: Operations> Machine for Roomed<M> {
    fn start(&mut self, setup: &Setup) -> u64 {
        self.machine.start(setup).err().unwrap_or(0)
    }

    fn sequence(&mut self, rows: &[Row]) -> u64 {
        rows::run(&mut self.machine, rows, &mut self.answers)
    }

    fn answer(&self, k: usize) -> Numbers {
        self.answers[k]
    }
}

fn roomed(machine: impl Operations + 'static, rows: usize) -> Box<dyn Machine> {
    Box::new(Roomed { machine, answers: vec![[0; ANSWER_NUMBERS]; rows] })
}

/// (a) for so many pages and so many rows of a sequence; nothing is started.
pub fn bounded(pages: usize, rows: usize) -> Box<dyn Machine> {
    roomed(bounded::Bounded::new(pages), rows)
}

/// (b), the same.
pub fn idiomatic(pages: usize, rows: usize) -> Box<dyn Machine> {
    roomed(idiomatic::Idiomatic::new(pages), rows)
}
