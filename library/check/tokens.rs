//! Texts cut into tokens, which is all that C, Rust and Rattle need to be read here.

/// A text without its comments: `/* .. */`, and from `//` to the end of a line.
pub fn bare(text: &str) -> String {
    let mut rest = text;
    let mut kept = String::new();
    while let Some(at) = rest.find("/*").into_iter().chain(rest.find("//")).min() {
        kept.push_str(&rest[..at]);
        let (end, more) = if rest[at..].starts_with("/*") { ("*/", 2) } else { ("\n", 0) };
        rest = rest[at..].find(end).map_or("", |past| &rest[at + past + more..]);
    }
    kept + rest
}

/// Words of letters, digits and `_`, and every other sign by itself; blanks are dropped.
pub fn tokens(text: &str) -> Vec<&str> {
    let mut found = vec![];
    let mut rest = text.trim_start();
    while let Some(first) = rest.chars().next() {
        let end = match rest.find(|c: char| !is_word(c)) {
            Some(0) => first.len_utf8(),
            Some(end) => end,
            None => rest.len(),
        };
        found.push(&rest[..end]);
        rest = rest[end..].trim_start();
    }
    found
}

fn is_word(c: char) -> bool {
    c.is_alphanumeric() || c == '_'
}

/// What stands between the bracket that `open` ends with, where it first stands, and the one that
/// closes it.
pub fn block<'a>(text: &'a str, open: &str) -> Option<&'a str> {
    let start = text.find(open)? + open.len();
    let mut deep = 1;
    for (at, c) in text[start..].char_indices() {
        deep += i32::from("({[".contains(c)) - i32::from(")}]".contains(c));
        if deep == 0 {
            return Some(&text[start..start + at]);
        }
    }
    None
}

/// The parts of a text between the separators that stand in no bracket; an empty last one is none.
pub fn parts(text: &str, separator: char) -> Vec<&str> {
    let mut found = vec![];
    let (mut deep, mut start) = (0, 0);
    for (at, c) in text.char_indices() {
        deep += i32::from("({[".contains(c)) - i32::from(")}]".contains(c));
        if c == separator && deep == 0 {
            found.push(text[start..at].trim());
            start = at + c.len_utf8();
        }
    }
    found.push(text[start..].trim());
    found.retain(|part| !part.is_empty());
    found
}

/// A number as C, Rust and Rattle write it.
pub fn number(text: &str) -> Option<u64> {
    match text.trim() {
        "UINT64_MAX" | "u64::MAX" => Some(u64::MAX),
        digits => digits.trim_end_matches('u').replace('_', "").parse().ok(),
    }
}

/// The words of a name, in small letters: of `CPU_MAP`, `CpuMap` and `CPU map` these are `cpu` and
/// `map`.
pub fn words(name: &str) -> Vec<String> {
    let mut found = vec![String::new()];
    let mut before = ' ';
    for c in name.chars() {
        if !c.is_alphanumeric() || (c.is_uppercase() && before.is_lowercase()) {
            found.push(String::new());
        }
        if c.is_alphanumeric() {
            found.last_mut().unwrap().extend(c.to_lowercase());
        }
        before = c;
    }
    found.retain(|word| !word.is_empty());
    found
}
