//! The inline functions of include/tiligormis.h, read.

use crate::tokens::{block, parts, tokens};
use std::collections::BTreeMap;

/// An inline function: what it gives, its parameters as they are written, what stands between its
/// braces, and the comment before it.
#[derive(Clone, Default)]
pub struct Inline {
    pub result: String,
    pub parameters: Vec<String>,
    pub body: String,
    pub comment: String,
}

pub type Inlines = BTreeMap<String, Inline>;

const HEAD: &str = "static inline ";

pub fn read(text: &str) -> Inlines {
    let mut found = Inlines::new();
    for (at, _) in text.match_indices(HEAD) {
        let rest = &text[at + HEAD.len()..];
        let Some((head, _)) = rest.split_once('(') else { continue };
        let words = tokens(head);
        let Some((name, result)) = words.split_last() else { continue };
        let list = block(rest, "(").unwrap_or("");
        let list = if list.trim() == "void" { "" } else { list };
        let inline = Inline {
            result: result.join(" "),
            parameters: parts(list, ',').iter().map(|part| tokens(part).join(" ")).collect(),
            body: block(rest, "{").unwrap_or("").to_string(),
            comment: comment(&text[..at]),
        };
        found.insert(name.to_string(), inline);
    }
    found
}

/// The comment that a text ends with.
fn comment(text: &str) -> String {
    let text = text.trim_end();
    let start = text.rfind("/*").filter(|_| text.ends_with("*/")).unwrap_or(text.len());
    let lines = text[start..].trim_start_matches("/*").trim_end_matches("*/").lines();
    let lines: Vec<&str> = lines.map(|line| line.trim().trim_start_matches('*').trim()).collect();
    lines.join("\n").trim().to_string()
}

/// A text without its inline functions.
pub fn without(code: &str) -> String {
    let mut rest = code;
    let mut kept = String::new();
    while let Some(at) = rest.find(HEAD) {
        kept.push_str(&rest[..at]);
        let body = block(&rest[at..], "{").map_or(0, str::len);
        let open = rest[at..].find('{').map_or(rest.len(), |open| at + open + 1);
        rest = &rest[(open + body + 1).min(rest.len())..];
    }
    kept + rest
}

impl Inline {
    /// What a call of `function` in the body is given.
    pub fn call(&self, function: &str) -> Option<Vec<String>> {
        let list = block(&self.body, &format!("{function}("))?;
        Some(parts(list, ',').iter().map(|part| tokens(part).join(" ")).collect())
    }

    /// The texts in quotes that the body lists, one a line.
    pub fn texts(&self) -> Vec<String> {
        let list = block(&self.body, "{").unwrap_or("");
        let lines = list.lines().filter_map(|line| line.trim().strip_prefix('"'));
        lines.filter_map(|line| line.strip_suffix("\",")).map(String::from).collect()
    }

    /// Of a field of an entry, `(entry >> SHIFT) & MASK` or `entry & MASK`: its lowest bit, and how
    /// many numbers it can hold.
    pub fn field(&self) -> Option<(u64, u64)> {
        let found = tokens(&self.body);
        let at = found.iter().position(|word| *word == "entry")?;
        let (shift, mask) = match found[at + 1..] {
            [">", ">", shift, ")", "&", mask, ..] => (shift, mask),
            ["&", mask, ..] => ("0", mask),
            _ => return None,
        };
        let mask = u64::from_str_radix(mask.strip_prefix("0x")?, 16).ok()?;
        Some((1u64.checked_shl(shift.parse().ok()?)?, mask + 1))
    }

    /// What the block before a constructor says: the operation's number, and after `Refused:` the
    /// numbers that begin the reasons.
    pub fn told(&self) -> Option<(u64, Vec<u64>)> {
        let (number, rest) = self.comment.split_once(',')?;
        let reasons = rest.split_once("\nRefused:")?.1.split_once("\nEffect:")?.0;
        let reasons = reasons.trim_end_matches('.');
        Some((number.parse().ok()?, leading(reasons)))
    }
}

/// The numbers that begin the parts of a text between semicolons; of `none` there are none.
pub fn leading(text: &str) -> Vec<u64> {
    let reasons = text.split(';').map(str::trim).filter(|reason| *reason != "none");
    reasons
        .map(|reason| reason.split(' ').next().and_then(|first| first.parse().ok()).unwrap_or(0))
        .collect()
}
