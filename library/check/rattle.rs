//! The Rattle sources, read: what the crates say of numbers and structs, and the functions that
//! they export.

use crate::side::{Function, Kind, Named, Side};
use crate::tokens::{bare, block, number, parts, tokens};
use crate::value::evaluated;
use std::collections::BTreeMap;

/// The text of each crate's src/.
pub type Crates = BTreeMap<String, String>;

pub struct Source {
    pub side: Side,
    /// Which crate each exported function is in.
    pub exporting: BTreeMap<String, String>,
    /// The first number of an answer that is accepted.
    pub accepted: Option<u64>,
    /// The refusals in the order of the enum.
    pub refusals: Vec<String>,
    /// The number of each refusal, and of each mark, by the case.
    pub refusal_numbers: BTreeMap<String, u64>,
    pub mark_numbers: BTreeMap<String, u64>,
    /// The same of a log's refusals, and how many bytes the body of each kind of record has.
    pub log_refusals: Vec<String>,
    pub log_refusal_numbers: BTreeMap<String, u64>,
    pub bodies: Vec<u64>,
    /// The number of each operation that a row can name, and of the arguments a, b, c, .. that are
    /// read of it what each is.
    pub operations: BTreeMap<u64, BTreeMap<char, String>>,
    /// What is asked of the length of each list.
    pub lengths: BTreeMap<String, String>,
}

/// Where the numbers stand that the header names too.
const NUMBERS: [&str; 6] =
    ["numbers", "access", "start", "box_header", "box_reads", "operation_log"];

pub fn read(crates: &Crates) -> Source {
    let code: Crates = crates.iter().map(|(name, text)| (name.clone(), bare(text))).collect();
    let of = |name: &str| code.get(name).map_or("", String::as_str);
    let mut side = Side::default();
    for name in NUMBERS {
        constants(of(name), &mut side);
    }
    for (krate, name) in [("slots", "Slot"), ("units", "Unit")] {
        side.structs.insert(name.to_string(), fields(of(krate), name, of("numbers")));
    }
    let mut exporting = BTreeMap::new();
    for (name, text) in &code {
        for (function, found) in exported(text) {
            exporting.insert(function.clone(), name.clone());
            side.functions.insert(function, found);
        }
    }
    Source {
        side,
        exporting,
        accepted: accepted(of("numbers")),
        refusals: cases(of("numbers"), "Refusal"),
        refusal_numbers: numbered(of("numbers"), "Refusal"),
        mark_numbers: numbered(of("units"), "Mark"),
        log_refusals: cases(of("operation_log"), "LogRefusal"),
        log_refusal_numbers: arms(of("operation_log"), "LogRefusal"),
        bodies: bodies(of("operation_log")),
        operations: operations(of("rows")),
        lengths: lengths(of("judge")),
    }
}

/// `const NAME: TYPE = VALUE;`
fn constants(code: &str, side: &mut Side) {
    for (at, word) in code.match_indices("const ") {
        let rest = &code[at + word.len()..];
        let Some((head, rest)) = rest.split_once('=') else { continue };
        let (Some(name), Some((value, _))) = (tokens(head).first().copied(), rest.split_once(';'))
        else {
            continue;
        };
        if let Some(value) = evaluated(value, &side.numbers) {
            side.numbers.insert(name.to_string(), value);
        }
    }
}

/// A struct's fields; in place of a region stand the fields of one, which are `numbers`' to say.
fn fields(code: &str, name: &str, numbers: &str) -> Vec<Named> {
    let body = block(code, &format!("pub struct {name} {{")).unwrap_or("");
    parts(body, ',')
        .iter()
        .filter_map(|field| field.strip_prefix("pub ")?.split_once(':'))
        .flat_map(|(name, kind)| match kind.trim() {
            "Region" => fields(numbers, "Region", ""),
            kind => vec![Named::new(name.trim(), Kind::Value(kind.to_string()))],
        })
        .collect()
}

/// An enum's cases, each without the number that it may be given.
fn cases(code: &str, name: &str) -> Vec<String> {
    let body = block(code, &format!("pub enum {name} {{")).unwrap_or("");
    let case = |part: &str| part.split('=').next().unwrap_or("").trim().to_string();
    parts(body, ',').into_iter().map(case).collect()
}

/// The numbers that an enum gives its cases: `CASE = NUMBER`.
fn numbered(code: &str, name: &str) -> BTreeMap<String, u64> {
    let body = block(code, &format!("pub enum {name} {{")).unwrap_or("");
    let found = parts(body, ',').into_iter().filter_map(|part| {
        let (case, value) = part.split_once('=')?;
        Some((case.trim().to_string(), number(value)?))
    });
    found.collect()
}

/// The arm `Ok(Accepted { .. }) => [NUMBER, ..]`.
fn accepted(code: &str) -> Option<u64> {
    let arm = code
        .lines()
        .find(|line| line.trim().starts_with("Ok(Accepted {") && line.contains("=> ["))?;
    number(arm.split_once("=> [")?.1.split(',').next()?)
}

/// The arms `NAME::CASE => NUMBER`.
fn arms(code: &str, name: &str) -> BTreeMap<String, u64> {
    let found = code.lines().filter_map(|line| {
        let (case, value) = line.trim().strip_prefix(name)?.strip_prefix("::")?.split_once("=>")?;
        Some((case.trim().to_string(), number(value.trim_end_matches(','))?))
    });
    found.collect()
}

/// The table `const BODIES: TYPE = [..]`.
fn bodies(code: &str) -> Vec<u64> {
    let table = code.split_once("const BODIES:").and_then(|(_, rest)| rest.split_once('='));
    let list = table.and_then(|(_, list)| block(list, "[")).unwrap_or("");
    parts(list, ',').into_iter().filter_map(number).collect()
}

/// The arms `NUMBER => ..` of the reading of a row, and which of the arguments a, b, c, .. each
/// takes.
fn operations(code: &str) -> BTreeMap<u64, BTreeMap<char, String>> {
    let mut bodies: BTreeMap<u64, String> = BTreeMap::new();
    let mut now: Vec<u64> = vec![];
    for line in code.lines() {
        let mut said = line;
        if let Some((arm, body)) = line.split_once("=>") {
            now = arm.split('|').filter_map(number).collect();
            said = body;
        }
        for number in &now {
            *bodies.entry(*number).or_default() += said;
        }
    }
    let region = parts(block(code, "fn region_of(").unwrap_or(""), ',');
    let region: Vec<&str> = region.iter().filter_map(|part| part.split(':').next()).collect();
    bodies.into_iter().map(|(number, body)| (number, arguments(number, &body, &region))).collect()
}

/// What each argument of an arm is: by the kind of number that is made of it, by the field that it
/// is given to, by the operation's own place for it, or by its place in a region. An arm of two
/// numbers says in `side_of(number, NUMBER)` which of them is the CPU's.
fn arguments(of: u64, body: &str, region: &[&str]) -> BTreeMap<char, String> {
    let found = tokens(body);
    let cpu = body.split_once("side_of(number,").and_then(|(_, rest)| rest.split(')').next());
    let port = if cpu.and_then(number) == Some(of) { "cpu" } else { "device" };
    let mut kinds = BTreeMap::new();
    for (at, word) in found.iter().enumerate().filter(|(_, word)| "abcdef".contains(**word)) {
        let letter = word.chars().next().unwrap_or(' ');
        let kind = match found[..at] {
            _ if found.contains(&"region_of") => {
                region.get(letter as usize - 'a' as usize).copied().unwrap_or("nothing")
            }
            [.., "VmId" | "target_of", "("] => "vm",
            [.., "GuestPage", "("] => "guest",
            [.., "PhysPage", "("] => "page",
            [.., "GivePort" | "FillSlot", "("] | [.., "port", ":"] => port,
            [.., "EmptySlot", "("] => "slot",
            [.., field, ":"] => field,
            _ => "nothing",
        };
        kinds.insert(letter, kind.to_string());
    }
    kinds
}

/// A function's list of slices crosses as a pointer and a length for each.
fn exported(code: &str) -> Vec<(String, Function)> {
    let mut found = vec![];
    for (at, head) in code.match_indices("extern \"C\" fn ") {
        let rest = &code[at + head.len()..];
        let list = block(rest, "(").unwrap_or("");
        let parameters = parts(list, ',')
            .iter()
            .flat_map(|part| parameter(part).unwrap_or_else(|| vec![Named::unread(part)]))
            .collect();
        let result = rest
            .split_once("->")
            .map_or("", |(_, result)| tokens(result.lines().next().unwrap_or(""))[0]);
        let name = tokens(rest)[0].to_string();
        found.push((name, Function { parameters, result: Kind::Value(result.to_string()) }));
    }
    found
}

fn parameter(text: &str) -> Option<Vec<Named>> {
    let (name, kind) = text.split_once(':')?;
    let name = name.trim();
    let (mutable, to) = match tokens(kind)[..] {
        ["&", "mut", "[", to, "]"] => (true, to),
        ["&", "[", to, "]"] => (false, to),
        [kind] => return Some(vec![Named::new(name, Kind::Value(kind.to_string()))]),
        _ => return None,
    };
    let pointer = Named::new(name, Kind::Pointer { mutable, to: to.to_string() });
    let length = Named::new(&format!("{name}_length"), Kind::Value("usize".to_string()));
    Some(vec![pointer, length])
}

/// What the judgement compares each length with: `(NAME == LENGTH)`, of memory `memory.len() as u64
/// == LENGTH`.
fn lengths(code: &str) -> BTreeMap<String, String> {
    let mut found = BTreeMap::new();
    for (at, _) in code.match_indices("==") {
        let before = tokens(&code[..at]);
        let name = match before[..] {
            [.., "(", name] => name,
            [.., name, ".", "len", "(", ")", "as", "u64"] => name,
            _ => continue,
        };
        let end = code[at..].find(['\n', ')', '&']).map_or(code.len(), |end| at + end);
        let said = code[at + 2..end].trim().trim_end_matches(" as usize");
        found.entry(name.to_string()).or_insert(said.to_string());
    }
    found
}
