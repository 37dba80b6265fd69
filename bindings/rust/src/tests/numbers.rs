//! The numbers that Rust and C both name.

use super::*;
use crate::numbers::{LOG_REFUSALS, NAMED, REFUSALS};

#[test]
fn numbers_are_the_headers() {
    let header = include_str!("../../../../include/tiligormis.h");
    let refusals = REFUSALS.iter().map(|(name, _, number)| (*name, *number));
    let of_logs = LOG_REFUSALS.iter().map(|(name, _, number)| (*name, *number));
    let numbers: Vec<(&str, u64)> = NAMED.iter().copied().chain(refusals).chain(of_logs).collect();
    let mut named = 0;
    for line in header.lines().filter(|line| !line.contains("TILIGORMIS_VERSION")) {
        let words: Vec<&str> = line.split_whitespace().filter(|&word| word != "#define").collect();
        let Some(name) = words[..].first().and_then(|word| word.strip_prefix("TILIGORMIS_")) else {
            continue;
        };
        let value = words.iter().skip(1).find(|&&word| word != "=").map(|word| match *word {
            "UINT64_MAX" => Ok(u64::MAX),
            digits => digits.trim_end_matches(['u', ',']).parse(),
        });
        let Some(Ok(value)) = value else { continue };
        assert!(numbers.contains(&(name, value)), "{name} is {value} in the header");
        named += 1;
    }
    assert_eq!(named, numbers.len());
}

#[test]
fn rows_are_filled_up() {
    assert_eq!(row([]), [0; ROW_NUMBERS]);
    assert_eq!(row([SHARE_PAGE, 1, 2, 3]), [5, 1, 2, 3, 0, 0, 0, 0]);
    assert_eq!(row([9; ROW_NUMBERS]), [9; ROW_NUMBERS]);
}
