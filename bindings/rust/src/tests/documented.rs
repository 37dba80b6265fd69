//! The refusals that the documentation of a method lists, against the manual's table of operations.

use super::*;
use crate::numbers::REFUSALS;
use crate::operations::METHODS;
use std::collections::BTreeMap;

/// Of each operation the refusals after 1 and 2, in order, by their numbers.
type Lists = BTreeMap<u64, Vec<u64>>;

/// What the comments of the table in operations.rs list.
fn documented(source: &str) -> Lists {
    let mut lists = Lists::new();
    let mut list = Vec::new();
    for line in source.lines().map(str::trim_start) {
        if let Some((case, _)) =
            line.strip_prefix("/// - [`Refusal::").unwrap_or("").split_once('`')
        {
            let has = |(_, refusal, _): &&(&str, Refusal, u64)| std::format!("{refusal:?}") == case;
            list.push(REFUSALS.iter().find(has).unwrap().2);
        } else if !line.starts_with("///") {
            let name = line.split_once(": ").and_then(|(_, rest)| rest.split_once('('));
            let method =
                METHODS.iter().find(|(method, _)| name.is_some_and(|(name, _)| name == *method));
            if let Some((_, number)) = method {
                lists.insert(*number, std::mem::take(&mut list));
            }
        }
    }
    lists
}

/// What section 7 of the manual lists, in the fourth column.
fn told(manual: &str) -> Lists {
    let mut lists = Lists::new();
    let mut before = Vec::new();
    let section = manual.split("\n## ").find(|section| section.starts_with("7. ")).unwrap();
    for line in section.lines() {
        let cells: Vec<&str> = line.split('|').map(str::trim).collect();
        let [_, numbers, _, _, refusals, ..] = cells[..] else { continue };
        let numbers: Vec<u64> =
            numbers.split(", ").filter_map(|number| number.parse().ok()).collect();
        if refusals != "the same" {
            let first =
                |part: &str| part.split_whitespace().next().and_then(|word| word.parse().ok());
            before = refusals.split(';').filter_map(first).collect();
        }
        lists.extend(numbers.into_iter().map(|number| (number, before.clone())));
    }
    lists
}

#[test]
fn every_method_lists_the_manuals_refusals() {
    let documented = documented(include_str!("../operations.rs"));
    let told = told(include_str!("../../../../docs/MACHINE.md"));
    assert_eq!(told.len(), METHODS.len());
    assert_eq!(told[&INSERT_REGION], [3, 4, 8, 6, 10, 7, 14]);
    assert_eq!(told[&DATA_BARRIER], []);
    assert_eq!(documented, told);
}
