//! What a constant is, of numbers and of constants that stand before it.

use crate::tokens::{number, tokens};
use std::collections::BTreeMap;

pub type Numbers = BTreeMap<String, u64>;

/// The value of sums, differences, products and quotients, of brackets and of `as TYPE`.
pub fn evaluated(text: &str, known: &Numbers) -> Option<u64> {
    if let Some(value) = number(text) {
        return Some(value);
    }
    let found = tokens(text);
    let (value, rest) = sum(&found, known)?;
    rest.is_empty().then_some(value)
}

type Read<'a> = Option<(u64, &'a [&'a str])>;

fn sum<'a>(found: &'a [&'a str], known: &Numbers) -> Read<'a> {
    let (mut value, mut rest) = product(found, known)?;
    while let [sign @ ("+" | "-"), more @ ..] = rest {
        let (next, after) = product(more, known)?;
        value = if *sign == "+" { value.checked_add(next)? } else { value.checked_sub(next)? };
        rest = after;
    }
    Some((value, rest))
}

fn product<'a>(found: &'a [&'a str], known: &Numbers) -> Read<'a> {
    let (mut value, mut rest) = one(found, known)?;
    while let [sign @ ("*" | "/"), more @ ..] = rest {
        let (next, after) = one(more, known)?;
        value = if *sign == "*" { value.checked_mul(next)? } else { value.checked_div(next)? };
        rest = after;
    }
    Some((value, rest))
}

fn one<'a>(found: &'a [&'a str], known: &Numbers) -> Read<'a> {
    let (value, mut rest) = match found {
        ["(", inside @ ..] => match sum(inside, known)? {
            (value, [")", rest @ ..]) => (value, rest),
            _ => return None,
        },
        [word, rest @ ..] => (number(word).or_else(|| known.get(*word).copied())?, rest),
        [] => return None,
    };
    while let ["as", _, after @ ..] = rest {
        rest = after;
    }
    Some((value, rest))
}
