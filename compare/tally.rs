//! Counts of what a comparison saw.

use std::collections::{BTreeMap, BTreeSet};
use std::fmt;

use second::coverage::refusals;
use second::machine::{OPERATIONS, REFUSALS};
use second::operate::{arguments, Kind};

type Counts = BTreeMap<u64, u64>;

/// Only what was compared and found alike is counted.
#[derive(Clone, Default, Debug)]
pub struct Tally {
    pub sizes: BTreeSet<u64>,
    /// Starts by number.
    pub starts: Counts,
    pub rows: u64,
    /// How often each operation gave each number; 0 stands for every unknown operation.
    pub answers: BTreeMap<(u64, u64), u64>,
    /// Rows by the entry that took them one by one.
    pub by_operation: u64,
    pub by_sequence: u64,
    /// Batches of the sequence entry by length.
    pub batches: Counts,
    pub short_rooms: u64,
    /// How often all of a memory of over 16 pages was compared after a row.
    pub whole_memories: u64,
    pub free_queries: u64,
    pub validities: u64,
}

impl Tally {
    pub fn answer(&mut self, operation: u64, number: u64) {
        self.rows += 1;
        let operation = if arguments(operation).is_some() { operation } else { 0 };
        *self.answers.entry((operation, number)).or_default() += 1;
    }

    pub fn batch(&mut self, length: usize) {
        *self.batches.entry(length as u64).or_default() += 1;
    }

    /// Answers that the paper lists and that were never seen.
    pub fn missing(&self) -> Vec<String> {
        let mut missing = Vec::new();
        for operation in 1..=OPERATIONS {
            let kinds = arguments(operation).unwrap_or_default();
            let judged = kinds.iter().any(|&kind| kind != Kind::Any);
            let first = if judged { &[0, 1, 2][..] } else { &[0, 1][..] };
            for &number in first.iter().chain(refusals(operation)) {
                if !self.answers.contains_key(&(operation, number)) {
                    missing.push(format!("operation {operation} answers {number}"));
                }
            }
        }
        missing
    }

    fn by_number(&self) -> Counts {
        let mut counts = Counts::new();
        for (&(_, number), times) in &self.answers {
            *counts.entry(number).or_default() += times;
        }
        counts
    }

    fn batches_by_span(&self) -> impl Iterator<Item = (String, u64)> + '_ {
        [(0, 0), (1, 1), (2, 8), (9, 64), (65, 999), (1000, 1000)].into_iter().map(|(from, to)| {
            let name = if from == to { from.to_string() } else { format!("{from}-{to}") };
            (name, self.batches.range(from..=to).map(|(_, times)| times).sum())
        })
    }
}

/// Numbers and how often each was seen.
pub fn list(counts: impl IntoIterator<Item = (impl fmt::Display, impl fmt::Display)>) -> String {
    let cells: Vec<String> = counts.into_iter().map(|(n, times)| format!("{n}:{times}")).collect();
    cells.join(" ")
}

impl fmt::Display for Tally {
    fn fmt(&self, f: &mut fmt::Formatter) -> fmt::Result {
        let boxes: u64 = self.starts.values().sum();
        let sizes: Vec<String> = self.sizes.iter().map(u64::to_string).collect();
        writeln!(f, "{boxes} boxes, {} sizes: {}", sizes.len(), sizes.join(" "))?;
        writeln!(f, "starts, number:times  {}", list(&self.starts))?;
        let (one, sequence) = (self.by_operation, self.by_sequence);
        writeln!(f, "{} rows, each with its answer and the state after it", self.rows)?;
        writeln!(f, "  {one} by the one-operation entry, {sequence} by the sequence entry alone")?;
        let batches: u64 = self.batches.values().sum();
        writeln!(f, "the same rows in {batches} batches, with the state after each")?;
        writeln!(f, "  lengths:times  {}", list(self.batches_by_span()))?;
        writeln!(f, "  {} batches first with too little room for answers", self.short_rooms)?;
        writeln!(f, "{} times after a row all of a memory of over 16 pages", self.whole_memories)?;
        writeln!(f, "{} free queries, {} validities", self.free_queries, self.validities)?;
        writeln!(f, "answers, number:times  {}", list(self.by_number()))?;
        writeln!(f, "answers of each operation, 0 for unknown ones")?;
        for operation in 0..=OPERATIONS {
            let seen = self.answers.range((operation, 0)..=(operation, REFUSALS));
            let seen = seen.map(|(&(_, number), times)| (number, times));
            writeln!(f, "{operation:>4}  {}", list(seen))?;
        }
        let missing = self.missing();
        let missing = if missing.is_empty() { "nothing".to_string() } else { missing.join(", ") };
        writeln!(f, "never seen: {missing}")
    }
}
