//! include/tiligormis.h, read.

use crate::inline::{self, Inlines};
use crate::side::{Function, Kind, Named, Side};
use crate::tokens::{bare, block, number, parts, tokens};
use crate::value::{evaluated, Numbers};

/// An operation as the header names it: its number, its name, and the first word of each argument
/// that its comment lists.
pub struct Operation {
    pub number: u64,
    pub name: String,
    pub arguments: Vec<String>,
}

pub struct Header {
    pub side: Side,
    /// The macros of the version, which no other side names as numbers.
    pub versions: Numbers,
    /// The refusals' names, numbers and comments; those of the machine, and those of a log.
    pub refusals: Vec<(String, u64, String)>,
    pub log_refusals: Vec<(String, u64, String)>,
    pub operations: Vec<Operation>,
    /// The arrays that `TILIGORMIS_LENT` hands on, each with its length, without `TILIGORMIS_`.
    pub lent: Vec<(String, String)>,
    pub inlines: Inlines,
}

pub fn read(text: &str) -> Header {
    let code = inline::without(&bare(&without_cplusplus(text)));
    let mut side = Side::default();
    for line in code.lines().filter_map(|line| line.strip_prefix("#define TILIGORMIS_")) {
        let (name, value) = line.split_once(' ').unwrap_or((line, ""));
        if let Some(value) = evaluated(&value.replace("TILIGORMIS_", ""), &side.numbers) {
            side.numbers.insert(name.to_string(), value);
        }
    }
    let (versions, numbers) =
        side.numbers.into_iter().partition(|(name, _)| name.starts_with("VERSION"));
    side.numbers = numbers;
    let refusals = enumerated(text, "tiligormis_refusal");
    let log_refusals = enumerated(text, "tiligormis_log_refusal");
    let operations = enumerated(text, "tiligormis_operation_number");
    for (name, value, _) in refusals.iter().chain(&log_refusals).chain(&operations) {
        side.numbers.insert(name.clone(), *value);
    }
    structs(&code, &mut side);
    functions(&code, &mut side);
    Header {
        side,
        versions,
        refusals,
        log_refusals,
        operations: operations
            .into_iter()
            .map(|(name, number, said)| Operation { number, name, arguments: first_words(&said) })
            .collect(),
        lent: lent(&code, text),
        inlines: inline::read(text),
    }
}

/// The first word of each part of a list.
fn first_words(said: &str) -> Vec<String> {
    parts(said, ',').iter().filter_map(|part| Some(tokens(part).first()?.to_string())).collect()
}

/// The text for C: without what only C++ reads.
fn without_cplusplus(text: &str) -> String {
    let mut skip = false;
    let mut kept = String::new();
    for line in text.lines() {
        if line.starts_with('#') && skip {
            skip = false;
        }
        if line == "#ifdef __cplusplus" {
            skip = true;
        }
        if !skip {
            kept += line;
            kept += "\n";
        }
    }
    kept
}

/// The names of an enum without `TILIGORMIS_`, their numbers and their comments.
fn enumerated(text: &str, name: &str) -> Vec<(String, u64, String)> {
    let body = block(text, &format!("enum {name} {{")).unwrap_or("");
    body.lines()
        .filter_map(|line| {
            let (code, comment) = line.split_once("/*").unwrap_or((line, ""));
            let (name, value) = code.split_once('=')?;
            let name = name.trim().strip_prefix("TILIGORMIS_")?;
            let value = number(value.trim().trim_end_matches(','))?;
            Some((name.to_string(), value, comment.trim_end_matches("*/").trim().to_string()))
        })
        .collect()
}

fn structs(code: &str, side: &mut Side) {
    let mut rest = code;
    while let Some(at) = rest.find("typedef struct tiligormis_") {
        rest = &rest[at..];
        let name = tokens(rest)[2];
        let body = block(rest, "{").unwrap_or("");
        let fields = parts(body, ';').iter().map(|field| declared(field, side)).collect();
        side.structs.insert(kind_of(name), fields);
        rest = &rest["typedef".len()..];
    }
}

fn functions(code: &str, side: &mut Side) {
    let code = code.replace("\\\n", " ");
    let plain: Vec<&str> = code.lines().filter(|line| !line.starts_with('#')).collect();
    for statement in parts(&plain.join("\n"), ';') {
        let Some((head, _)) = statement.split_once('(') else { continue };
        let found = tokens(head);
        let [.., result, name] = found[..] else { continue };
        if !name.starts_with("tiligormis_") {
            continue;
        }
        let list = block(statement, "(").unwrap_or("");
        let parameters = parts(list, ',').iter().map(|part| declared(part, side)).collect();
        let function = Function { parameters, result: Kind::Value(kind_of(result)) };
        side.functions.insert(name.to_string(), function);
    }
}

/// A parameter or a field; one that cannot be read stands as it is written, so that it is like no
/// other side's.
fn declared(text: &str, side: &Side) -> Named {
    declaration(text, side).unwrap_or_else(|| Named::unread(text))
}

/// `[const] TYPE [*]NAME[[COUNT]]`
fn declaration(text: &str, side: &Side) -> Option<Named> {
    let found = tokens(text);
    let (mutable, found) = match found.split_first()? {
        (&"const", rest) => (false, rest),
        _ => (true, &found[..]),
    };
    let (kind, rest) = found.split_first()?;
    let kind = kind_of(kind);
    match rest {
        ["*", name] => Some(Named::new(name, Kind::Pointer { mutable, to: kind })),
        [name] => Some(Named::new(name, Kind::Value(kind))),
        [name, "[", count @ .., "]"] => {
            let count = evaluated(&count.join(" ").replace("TILIGORMIS_", ""), &side.numbers)?;
            Some(Named { name: name.to_string(), kind: Kind::Value(kind), count })
        }
        _ => None,
    }
}

/// A type of C as Rust names it.
fn kind_of(name: &str) -> String {
    if let Some(own) = name.strip_prefix("tiligormis_") {
        let capital = |word: &str| word[..1].to_uppercase() + &word[1..];
        return own.split('_').map(capital).collect();
    }
    match name {
        "size_t" => "usize".to_string(),
        _ => match name.strip_prefix("uint").and_then(|rest| rest.strip_suffix("_t")) {
            Some(bits) => format!("u{bits}"),
            None => name.to_string(),
        },
    }
}

/// Pointers and lengths in turn. That of memory is a field of the box, and the comment beside it
/// says what it is.
fn lent(code: &str, text: &str) -> Vec<(String, String)> {
    let start = code.find("#define TILIGORMIS_LENT(box)").unwrap_or(code.len());
    let lines = code[start..].lines();
    let mut said = String::new();
    for line in lines.skip(1) {
        said += line.trim_end_matches('\\');
        if !line.ends_with('\\') {
            break;
        }
    }
    let said = said.replace("TILIGORMIS_", "");
    let found = parts(&said, ',');
    let length = |part: &str| match part.strip_prefix("(box)->") {
        Some(field) => beside(text, field),
        None => part.to_string(),
    };
    let pairs = found.chunks(2).filter_map(|pair| match pair {
        [pointer, part] => Some((pointer.strip_prefix("(box)->")?.to_string(), length(part))),
        _ => None,
    });
    pairs.collect()
}

/// The comment beside a length in the box, without `TILIGORMIS_`.
fn beside(text: &str, field: &str) -> String {
    let body = block(text, "typedef struct tiligormis_box {").unwrap_or("");
    let line = body.lines().find_map(|line| line.trim().strip_prefix(&format!("size_t {field};")));
    let said = line.unwrap_or("").trim().trim_start_matches("/*").trim_end_matches("*/").trim();
    said.replace("TILIGORMIS_", "")
}
