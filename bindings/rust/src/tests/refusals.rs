//! Refusals: numbers, names and sentences.

use super::*;
use crate::numbers::{LOG_REFUSALS, REFUSALS};
use std::format;
use std::string::{String, ToString};

/// The first number that is no refusal of the machine.
const UNLISTED: u64 = REFUSALS.len() as u64 + 1;

/// Each of a list has its number, from the first on, and the name of its case.
macro_rules! have_their_numbers {
    ($refusals:ident, $list:ident, $first:expr) => {
        for (at, &(name, refusal, number)) in $list.iter().enumerate() {
            assert_eq!(number, at as u64 + $first);
            assert_eq!(refusal.number(), number, "{name}");
            assert_eq!($refusals::from_number(number), Some(refusal), "{name}");
            assert_eq!($refusals::accepted(number), Err(refusal), "{name}");
            let case: String = name.split('_').map(capital).collect();
            assert_eq!(format!("{refusal:?}"), case);
        }
    };
}

#[test]
fn every_refusal_has_its_number() {
    have_their_numbers!(Refusal, REFUSALS, 1);
    have_their_numbers!(LogRefusal, LOG_REFUSALS, 20);
    assert_eq!((REFUSALS.len(), LOG_REFUSALS.len()), (16, 4));
}

/// A word of a constant's name as the name of a case has it.
fn capital(word: &str) -> String {
    word[..1].to_string() + &word[1..].to_lowercase()
}

/// Nor is a number of one list taken for a refusal of the other.
#[test]
fn no_other_number_is_taken_for_one() {
    macro_rules! unlisted {
        ($refusals:ident, $others:expr) => {
            assert_eq!($refusals::accepted(ACCEPTED), Ok(()));
            assert_eq!($refusals::from_number(ACCEPTED), None);
            for number in $others {
                assert_eq!($refusals::from_number(number), None);
                let refusal = $refusals::accepted(number).unwrap_err();
                assert_eq!(refusal, $refusals::Unlisted { number });
                assert_eq!(refusal.number(), number);
                assert!(refusal.to_string().contains(&number.to_string()));
            }
        };
    }
    unlisted!(Refusal, [UNLISTED, CUT_SHORT, DOES_NOT_FIT, 1 << 32, u64::MAX]);
    unlisted!(LogRefusal, [1, CUT_SHORT - 1, DOES_NOT_FIT + 1, 1 << 32, u64::MAX]);
}

/// What the header's comment says of a number, if it says anything.
fn comment(name: &str) -> Option<&'static str> {
    let header = include_str!("../../../../include/tiligormis.h");
    let line = header.lines().find(|line| line.contains(&format!(" TILIGORMIS_{name} = ")))?;
    Some(line.split_once("/*")?.1.trim_end_matches("*/").trim())
}

#[test]
fn every_refusal_says_what_it_means() {
    let of_machines = REFUSALS.iter().map(|(name, refusal, _)| (*name, refusal.to_string()));
    let of_logs = LOG_REFUSALS.iter().map(|(name, refusal, _)| (*name, refusal.to_string()));
    let mut said: Vec<String> = Vec::new();
    for (name, meaning) in of_machines.chain(of_logs) {
        assert!(!meaning.is_empty() && !said.contains(&meaning), "{name}");
        assert_eq!(comment(name), Some(&*meaning), "{name} in the header");
        said.push(meaning);
    }
    assert!(comment("NONE").is_none());
}

#[test]
fn refusals_are_errors() {
    fn lose() -> Result<(), Box<dyn core::error::Error>> {
        Err(Refusal::NoRoom)?
    }
    assert_eq!(lose().unwrap_err().to_string(), Refusal::NoRoom.to_string());
    let refused = Refused { refusal: Refusal::PageClaimed, index: 2 };
    let error: &dyn core::error::Error = &refused;
    assert_eq!(error.to_string(), "a page is claimed elsewhere, at index 2");
    assert_eq!(Refused { index: 0, ..refused }.to_string(), "a page is claimed elsewhere");
    assert_eq!(Refusal::from(refused), Refusal::PageClaimed);
    let unreadable = LogError { refusal: LogRefusal::WrongLength, offset: 8 };
    let error: &dyn core::error::Error = &unreadable;
    assert_eq!(error.to_string(), "a record's length is wrong: not that of its kind, at byte 8");
    assert_eq!(LogRefusal::from(unreadable), LogRefusal::WrongLength);
}

#[test]
fn answers_are_results() {
    let read = Answer { dropped: 1, word: 9, ..Answer::default() };
    assert_eq!(read.accepted(), Ok(read));
    let refused = Answer { number: MAPPING_DIFFERS, index: 2, ..Answer::default() };
    assert_eq!(refused.accepted(), Err(Refused { refusal: Refusal::MappingDiffers, index: 2 }));
    let unlisted = Answer { number: UNLISTED, ..Answer::default() }.accepted().unwrap_err();
    assert_eq!(unlisted.refusal.number(), UNLISTED);
}
