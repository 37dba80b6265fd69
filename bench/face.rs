//! What all machines of the benchmark have in common: the limits, which are the second program's, how
//! words are packed, what start is told, and the face that each of them shows. docs/MACHINE.md says
//! what it means.

use second::machine;
pub use second::machine::{ANSWER_NUMBERS, ENTRIES, IDLE, PAIRS, PORTS, ROW_NUMBERS, SLOTS};
pub use second::machine::{UNITS, UNIT_NUMBERS};

pub const PAGES: usize = machine::PAGES as usize;
pub const PAGE_WORDS: usize = machine::WORDS as usize;
pub const GUEST_PAGES: usize = machine::GUESTS as usize;
pub const VMS: usize = machine::VMS as usize;
pub const ACCESSES: usize = machine::ACCESSES as usize;
pub const GENERATIONS: usize = machine::GENERATIONS as usize;

/// The access bits that reads and writes need.
pub const READ: usize = machine::READ as usize;
pub const WRITE: usize = machine::WRITE as usize;

/// Where the fields of a packed word begin, each at the end of the one before; generation stands
/// lowest, and one bit says filled.
pub const ACCESS_AT: u32 = 16;
pub const PAGE_AT: u32 = 19;
pub const FILLED_AT: u32 = 31;
pub const GUEST_AT: u32 = 32;
pub const VM_AT: u32 = 48;
pub const PORT_AT: u32 = 56;

/// The bits of a word from one place up to another.
#[inline]
pub fn bits(word: u64, from: u32, to: u32) -> u64 {
    word >> from & ((1 << (to - from)) - 1)
}

/// Whether `count` places from `base` on end at `limit` or before, without wrapping.
#[inline]
pub fn span_fits(base: usize, count: usize, limit: usize) -> bool {
    base.checked_add(count).is_some_and(|end| end <= limit)
}

#[derive(Clone, Copy, PartialEq, Eq, Debug)]
pub enum Side {
    Cpu,
    Dma,
}

/// What start is told.
#[derive(Clone, PartialEq, Eq, Debug)]
pub struct Setup {
    pub pages: usize,
    pub shared_base: usize,
    pub shared_count: usize,
    /// VM, guest page, page, count, access, mark.
    pub units: Vec<[u64; UNIT_NUMBERS]>,
}

/// An operation's number and its arguments; and the four numbers that answer it.
pub type Row = [u64; ROW_NUMBERS];
pub type Numbers = [u64; ANSWER_NUMBERS];

/// A machine with room for its answers.
pub trait Machine {
    /// The number of the refusal, or 0.
    fn start(&mut self, setup: &Setup) -> u64;
    /// The number of the refusal as a whole, or 0; the answers stand in the machine's own room.
    fn sequence(&mut self, rows: &[Row]) -> u64;
    fn answer(&self, k: usize) -> Numbers;
}
