//! The table of the operations in docs/MACHINE.md, read; and of crates.txt which crates are static
//! libraries, and a crate's version.

use crate::inline::leading;
use crate::tokens::{number, words};
use std::collections::BTreeMap;

/// What the manual says of an operation: words of its name, how many arguments it has, and its
/// refusals after 1 and 2, in order.
pub struct Told {
    pub words: Vec<String>,
    pub arguments: usize,
    pub refusals: Vec<u64>,
}

/// The operations by their numbers. A line of two numbers has two names, the first of them cut
/// short: `9, 10 | CPU, DMA unmap`.
pub fn read(text: &str) -> BTreeMap<u64, Told> {
    let start = text.find("| no. | operation | arguments |").unwrap_or(text.len());
    let mut found = BTreeMap::new();
    let mut arguments = 0;
    let mut refusals = vec![];
    for line in text[start..].lines().skip(2).take_while(|line| line.starts_with('|')) {
        let cells: Vec<&str> = line.split('|').map(str::trim).collect();
        let [_, numbers, names, listed, refused, ..] = cells[..] else { continue };
        arguments = match listed {
            "the same" => arguments,
            "none" => 0,
            listed => listed.split(',').count(),
        };
        if refused != "the same" {
            refusals = leading(refused);
        }
        for (value, name) in numbers.split(',').zip(names.split(',')) {
            let words = words(name).into_iter().filter(|word| word != "a").collect();
            if let Some(value) = number(value) {
                found.insert(value, Told { words, arguments, refusals: refusals.clone() });
            }
        }
    }
    found
}

/// The first two numbers of a crate's version.
pub fn version(cargo: &str) -> Option<String> {
    let line = cargo.lines().find_map(|line| line.strip_prefix("version = \""))?;
    let numbers: Vec<&str> = line.trim_end_matches('"').split('.').collect();
    Some(numbers[..numbers.len().min(2)].join("."))
}

/// The static libraries of crates.txt: lines `NAME staticlib: LIBRARY ..`.
pub fn static_libraries(text: &str) -> Vec<String> {
    let heads = text.lines().filter_map(|line| line.split_once(':'));
    heads.filter_map(|(head, _)| Some(head.strip_suffix(" staticlib")?.to_string())).collect()
}
