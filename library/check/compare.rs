//! The sides against each other, thing by thing.

use crate::c::Header;
use crate::compare_inline;
use crate::manual::Told;
use crate::rattle::Source;
use crate::side::{Function, Kind, Named, Side};
use crate::tokens::words;
use crate::value::evaluated;
use std::collections::{BTreeMap, BTreeSet};
use std::fmt::Display;

pub const HEADER: &str = "include/tiligormis.h";
const RUST: &str = "bindings/rust/src";

/// How many things agree, and what does not.
#[derive(Default)]
pub struct Report {
    pub passed: usize,
    pub failed: Vec<String>,
}

impl Report {
    /// One thing, and what two sides say of it; a side that does not have it says nothing.
    pub fn same<T: Display + PartialEq>(
        &mut self,
        thing: &str,
        one: (&str, Option<T>),
        other: (&str, Option<T>),
    ) {
        if one.1.is_some() && one.1 == other.1 {
            self.passed += 1;
            return;
        }
        let said = |side: Option<T>| side.map_or("nothing".to_string(), |said| format!("`{said}`"));
        self.failed.push(format!(
            "{thing}: {} has {}, {} has {}",
            one.0,
            said(one.1),
            other.0,
            said(other.1)
        ));
    }
}

pub struct Sides {
    pub header: Header,
    pub rust: Side,
    pub source: Source,
    pub manual: BTreeMap<u64, Told>,
    /// The crates that the library is made of.
    pub crates: Vec<String>,
    /// The Rust crate's version.
    pub version: Option<String>,
}

pub fn compare(sides: &Sides) -> Report {
    let mut report = Report::default();
    exporting(sides, &mut report);
    functions(sides, &mut report);
    numbers(sides, &mut report);
    refusals(sides, &mut report);
    marks(sides, &mut report);
    operations(sides, &mut report);
    records(sides, &mut report);
    structs(sides, &mut report);
    places(sides, &mut report);
    lent(sides, &mut report);
    lengths(sides, &mut report);
    compare_inline::compare(sides, &mut report);
    report
}

/// The static libraries of crates.txt are the crates that have functions for C, and no other.
fn exporting(sides: &Sides, report: &mut Report) {
    let listed: BTreeSet<&String> = sides.crates.iter().collect();
    let exporting: BTreeSet<&String> = sides.source.exporting.values().collect();
    for name in listed.union(&exporting) {
        let has = |side: &BTreeSet<&String>| side.contains(name).then_some("functions for C");
        report.same(
            &format!("crate {name}"),
            ("crates.txt", has(&listed)),
            ("crates/", has(&exporting)),
        );
    }
}

fn functions(sides: &Sides, report: &mut Report) {
    let (c, rust, source) =
        (&sides.header.side.functions, &sides.rust.functions, &sides.source.side.functions);
    let names: BTreeSet<&String> = c.keys().chain(rust.keys()).chain(source.keys()).collect();
    for name in names {
        let place =
            format!("crates/{}", sides.source.exporting.get(name).map_or("", String::as_str));
        let crossed = c.get(name).map(|function| crossing(function, &sides.header.side));
        let (one, other) = alike(c.get(name), rust.get(name), sides);
        function(name, (HEADER, one.as_ref()), (RUST, other.as_ref()), report);
        function(name, (HEADER, crossed.as_ref()), (&place, source.get(name)), report);
    }
}

/// A function of the header and of Rust, to be compared: where one side points to a struct of
/// numbers and the other to numbers, both point to numbers.
fn alike(
    c: Option<&Function>,
    rust: Option<&Function>,
    sides: &Sides,
) -> (Option<Function>, Option<Function>) {
    let numbers = |function: Option<&Function>, at: usize| {
        function.and_then(|function| function.parameters.get(at)).is_some_and(
            |parameter| matches!(&parameter.kind, Kind::Pointer { to, .. } if to == "u64"),
        )
    };
    let made = |function: &Function, side: &Side| {
        let mut made = crossing(function, side);
        for (at, parameter) in made.parameters.iter_mut().enumerate() {
            if !numbers(c, at) && !numbers(rust, at) {
                parameter.kind = function.parameters[at].kind.clone();
            }
        }
        made
    };
    (
        c.map(|function| made(function, &sides.header.side)),
        rust.map(|function| made(function, &sides.rust)),
    )
}

/// One function of two sides: that both have it, its result, and its parameters one by one.
fn function(
    name: &str,
    one: (&str, Option<&Function>),
    other: (&str, Option<&Function>),
    report: &mut Report,
) {
    let result = |function: Option<&Function>| function.map(|function| function.result.to_string());
    report.same(&format!("{name}, result"), (one.0, result(one.1)), (other.0, result(other.1)));
    let list = |function: Option<&Function>| {
        function.map_or(vec![], |function| function.parameters.clone())
    };
    let (mine, theirs) = (list(one.1), list(other.1));
    for at in 0..mine.len().max(theirs.len()) {
        let thing = format!("{name}, parameter {}", at + 1);
        let said = |list: &[Named]| list.get(at).map(Named::to_string);
        report.same(&thing, (one.0, said(&mine)), (other.0, said(&theirs)));
    }
}

/// A function of the header as the source has it: a struct of numbers is a slice of them, of which
/// the length is how many there are. Its name is then `.._numbers`, after the first word of the
/// pointer's.
fn crossing(function: &Function, side: &Side) -> Function {
    let mut parameters = function.parameters.clone();
    for at in 0..parameters.len() {
        let Kind::Pointer { to, .. } = &mut parameters[at].kind else { continue };
        if side.of_numbers(to) {
            *to = "u64".to_string();
            let name = parameters[at].name.clone();
            let first = name.split('_').next().unwrap_or("");
            if let Some(length) =
                parameters.get_mut(at + 1).filter(|next| next.name == format!("{first}_numbers"))
            {
                length.name = format!("{name}_length");
            }
        }
    }
    Function { parameters, result: function.result.clone() }
}

/// Every number of the header in Rust, and every limit in the source. Refusals, marks and
/// operations are no constants there; of the access bits the machine knows two, and the third is
/// what is left of the accesses; the longest record is a head and as many fields as there can be.
fn numbers(sides: &Sides, report: &mut Report) {
    let (c, rust, source) =
        (&sides.header.side.numbers, &sides.rust.numbers, &sides.source.side.numbers);
    for name in c.keys().chain(rust.keys()).collect::<BTreeSet<_>>() {
        report.same(name, (HEADER, c.get(name)), (RUST, rust.get(name)));
    }
    let refusals = sides.header.refusals.iter().chain(&sides.header.log_refusals);
    let other: BTreeSet<&String> = refusals.map(|(name, ..)| name).collect();
    let operations: BTreeSet<&String> =
        sides.header.operations.iter().map(|operation| &operation.name).collect();
    for (name, value) in c {
        if name == "EXECUTE" {
            let left = [source.get("ACCESSES"), source.get("READ"), source.get("WRITE")];
            let left = if let [Some(all), Some(read), Some(write)] = left {
                all.checked_sub(1 + read + write)
            } else {
                None
            };
            report.same(name, (HEADER, Some(*value)), ("crates/", left));
        } else if name == "RECORD_BYTES" {
            let longest = evaluated("HEAD_BYTES + FIELDS * FIELD_BYTES", source);
            report.same(name, (HEADER, Some(*value)), ("crates/operation_log", longest));
        } else if !other.contains(name) && !operations.contains(name) && !name.starts_with("MARK_")
        {
            report.same(name, (HEADER, Some(value)), ("crates/", source.get(name)));
        }
    }
}

/// The refusals of the machine, and those of a log.
fn refusals(sides: &Sides, report: &mut Report) {
    let accepted = sides.header.side.numbers.get("ACCEPTED").copied();
    report.same("ACCEPTED", (HEADER, accepted), ("answer_numbers", sides.source.accepted));
    let (said, source) = (&sides.header, &sides.source);
    let of_machine = said.refusals.get(1..).unwrap_or(&[]);
    listed("refusals", of_machine, &source.refusals, &source.refusal_numbers, report);
    let numbers = &source.log_refusal_numbers;
    listed("log refusals", &said.log_refusals, &source.log_refusals, numbers, report);
}

/// Refusals by their numbers: the header's enum, from its first on, the order of the source's, and
/// the number that this gives each.
fn listed(
    what: &str,
    header: &[(String, u64, String)],
    cases: &[String],
    numbers: &BTreeMap<String, u64>,
    report: &mut Report,
) {
    report.same(what, (HEADER, Some(header.len())), ("crates/", Some(cases.len())));
    let said: BTreeMap<u64, &String> =
        header.iter().map(|(name, value, _)| (*value, name)).collect();
    let first = header.first().map_or(0, |(_, value, _)| *value);
    for (number, case) in (first..).zip(cases) {
        let name = words(case).join("_").to_uppercase();
        report.same(
            &format!("refusal {number}"),
            (HEADER, said.get(&number).copied()),
            ("crates/", Some(&name)),
        );
        let value = header.iter().find(|(other, ..)| *other == name).map(|(_, value, _)| *value);
        report.same(&name, (HEADER, value), ("its number", numbers.get(case).copied()));
    }
}

fn marks(sides: &Sides, report: &mut Report) {
    let mark = |name: &String| name.strip_prefix("MARK_").map(String::from);
    let said: BTreeSet<String> = sides.header.side.numbers.keys().filter_map(mark).collect();
    let given: BTreeMap<String, u64> = sides
        .source
        .mark_numbers
        .iter()
        .map(|(case, value)| (case.to_uppercase(), *value))
        .collect();
    for name in said.iter().chain(given.keys()).collect::<BTreeSet<_>>() {
        let header = sides.header.side.numbers.get(&format!("MARK_{name}"));
        report.same(&format!("MARK_{name}"), (HEADER, header), ("crates/units", given.get(name)));
    }
}

/// The operations by their numbers: what the header and the manual call each, and the arguments
/// that these list and the source reads.
fn operations(sides: &Sides, report: &mut Report) {
    let said: BTreeMap<u64, _> =
        sides.header.operations.iter().map(|operation| (operation.number, operation)).collect();
    report.same(
        "operations",
        (HEADER, Some(sides.header.operations.len())),
        ("crates/rows", Some(sides.source.operations.len())),
    );
    let numbers = said.keys().chain(sides.source.operations.keys()).chain(sides.manual.keys());
    for number in numbers.copied().collect::<BTreeSet<u64>>() {
        let thing = format!("operation {number}, arguments");
        let header = said.get(&number).map(|operation| operation.arguments.len());
        let manual = sides.manual.get(&number).map(|told| told.arguments);
        // an operation's arguments are the first of a, b, c, ..
        let read = sides.source.operations.get(&number).map(|letters| {
            letters.keys().next_back().map_or(0, |last| *last as usize - 'a' as usize + 1)
        });
        report.same(&thing, (HEADER, header), ("docs/MACHINE.md", manual));
        report.same(&thing, (HEADER, header), ("crates/rows", read));
        let name = said.get(&number).map(|operation| operation.name.clone());
        let known = name.as_ref().map_or(vec![], |name| words(name));
        let told = sides.manual.get(&number).map(|told| {
            if told.words.iter().all(|word| known.contains(word)) {
                name.clone().unwrap_or_default()
            } else {
                told.words.join(" ")
            }
        });
        report.same(&format!("operation {number}"), (HEADER, name), ("docs/MACHINE.md", told));
    }
}

/// The kinds of record are the operations' numbers, and the body of each has four bytes for every
/// argument, eight for a value.
fn records(sides: &Sides, report: &mut Report) {
    let operations = &sides.header.operations;
    let kinds = sides.header.side.numbers.get("KINDS").copied();
    let last = operations.iter().map(|operation| operation.number).max();
    report.same("KINDS", (HEADER, kinds), ("the enum", last));
    for operation in operations {
        let fields = operation.arguments.iter().map(|name| if name == "value" { 8 } else { 4 });
        let at = operation.number.checked_sub(1).map(|at| at as usize);
        let body = at.and_then(|at| sides.source.bodies.get(at).copied());
        report.same(
            &format!("operation {}, body", operation.number),
            (HEADER, Some(fields.sum())),
            ("crates/operation_log", body),
        );
    }
    for name in ["CPU_WRITE", "DMA_WRITE"] {
        let header = sides.header.side.numbers.get(name);
        let source = sides.source.side.numbers.get(name);
        report.same(
            &format!("{name}, which has a value"),
            (HEADER, header),
            ("crates/operation_log", source),
        );
    }
}

/// What Rust has in another form: a row is an array there, and slices have their lengths.
const ONLY_C: [&str; 3] = ["Box", "Row", "Tables"];

/// The structs field by field, and that each has as many numbers as the source says. A slot is the
/// source's own struct; of a unit the source has the same fields.
fn structs(sides: &Sides, report: &mut Report) {
    let (c, rust, source) = (&sides.header.side, &sides.rust, &sides.source.side);
    for name in c
        .structs
        .keys()
        .chain(rust.structs.keys())
        .filter(|name| !ONLY_C.contains(&name.as_str()))
        .collect::<BTreeSet<_>>()
    {
        fields(name, (HEADER, c.structs.get(name)), (RUST, rust.structs.get(name)), true, report);
    }
    fields(
        "Slot",
        (HEADER, c.structs.get("Slot")),
        ("crates/slots", source.structs.get("Slot")),
        true,
        report,
    );
    fields(
        "Unit",
        (HEADER, c.structs.get("Unit")),
        ("crates/units", source.structs.get("Unit")),
        false,
        report,
    );
    for (name, numbers) in [
        ("Machine", "MACHINE_NUMBERS"),
        ("Unit", "UNIT_NUMBERS"),
        ("Row", "ROW_NUMBERS"),
        ("Answer", "ANSWER_NUMBERS"),
        ("FreePages", "FREE_NUMBERS"),
    ] {
        let bytes = source.numbers.get(numbers).map(|count| 8 * count);
        report.same(&format!("bytes of {name}"), (HEADER, c.place(name, None)), ("crates/", bytes));
    }
    report.same(
        "bytes of Slot",
        (HEADER, c.place("Slot", None)),
        ("crates/slots", source.place("Slot", None)),
    );
}

fn fields(
    name: &str,
    one: (&str, Option<&Vec<Named>>),
    other: (&str, Option<&Vec<Named>>),
    kinds: bool,
    report: &mut Report,
) {
    let count = |list: Option<&Vec<Named>>| list.map_or(0, Vec::len);
    for at in 0..count(one.1).max(count(other.1)).max(1) {
        let said = |list: Option<&Vec<Named>>| {
            let field = list?.get(at)?;
            Some(if kinds { field.to_string() } else { field.name.clone() })
        };
        report.same(
            &format!("{name}, field {}", at + 1),
            (one.0, said(one.1)),
            (other.0, said(other.1)),
        );
    }
}

/// Where the source finds the numbers of a header, and of a unit the mark, in numbers from the
/// first.
fn places(sides: &Sides, report: &mut Report) {
    for (name, field, place) in [
        ("Machine", "pages", None),
        ("Machine", "unit_count", Some("UNIT_COUNT_AT")),
        ("Machine", "known", Some("KNOWN_AT")),
        ("Machine", "cpus", Some("CPUS_AT")),
        ("Machine", "devices", Some("DEVICES_AT")),
        ("Machine", "units", Some("UNITS_AT")),
        ("Unit", "mark", Some("MARK_AT")),
    ] {
        let header = sides.header.side.place(name, Some(field)).map(|byte| byte / 8);
        let source = place.map_or(Some(0), |place| sides.source.side.numbers.get(place).copied());
        report.same(
            &format!("place of {name}.{field}"),
            (HEADER, header),
            ("crates/box_header", source),
        );
    }
}

/// The box in C: it has the arrays that every entry takes first, which is all that
/// `tiligormis_valid` takes, and the macro hands them on in order.
fn lent(sides: &Sides, report: &mut Report) {
    let none = vec![];
    let fields = sides.header.side.structs.get("Box").unwrap_or(&none);
    let pointers = |parts: &[Named], kinds: bool| {
        let arrays = parts.iter().filter(|part| matches!(part.kind, Kind::Pointer { .. }));
        let said = arrays.map(|part| if kinds { part.to_string() } else { part.name.clone() });
        Some(said.collect::<Vec<_>>().join(", "))
    };
    let functions = &sides.header.side.functions;
    let whole = functions.get("tiligormis_valid").map_or(0, |valid| valid.parameters.len());
    for (name, function) in functions {
        if function.parameters.first().is_some_and(|first| first.name == "machine") {
            // what an entry only reads is const there, and not in the box
            let kinds = name == "tiligormis_start";
            let first = &function.parameters[..whole.min(function.parameters.len())];
            report.same(
                &format!("{name}, box"),
                ("tiligormis_box", pointers(fields, kinds)),
                (name, pointers(first, kinds)),
            );
        }
    }
    let handed = sides.header.lent.iter().map(|(name, _)| name.clone());
    report.same(
        "TILIGORMIS_LENT",
        ("tiligormis_box", pointers(fields, false)),
        ("TILIGORMIS_LENT", Some(handed.collect::<Vec<_>>().join(", "))),
    );
}

/// Each length that the macro hands on is what the judgement asks for; both sides of the machine
/// have theirs from one function. The storage for a table has as many elements.
fn lengths(sides: &Sides, report: &mut Report) {
    let none = vec![];
    let tables = sides.header.side.structs.get("Tables").unwrap_or(&none);
    for (name, said) in &sides.header.lent {
        let one = name.strip_prefix("cpu_").or(name.strip_prefix("dma_")).unwrap_or(name);
        let asked = match one {
            "machine" => Some("MACHINE_NUMBERS".to_string()),
            one => sides.source.lengths.get(one).cloned(),
        };
        let thing = format!("{name}, length in a box");
        report.same(&thing, (HEADER, Some(said.clone())), ("crates/judge", asked));
        if ["machine", "memory"].contains(&one) {
            continue;
        }
        let stored = tables.iter().find(|table| table.name == *name).map(|table| table.count);
        report.same(
            &format!("{name}, length in tables"),
            (HEADER, stored),
            ("TILIGORMIS_LENT", evaluated(said, &sides.header.side.numbers)),
        );
    }
    let stored = tables.iter().map(|table| table.name.as_str()).collect::<Vec<_>>().join(", ");
    let handed = sides.header.lent.iter().map(|(name, _)| name.as_str());
    let handed: Vec<&str> = handed.filter(|name| !["machine", "memory"].contains(name)).collect();
    report.same(
        "tiligormis_tables",
        (HEADER, Some(stored)),
        ("TILIGORMIS_LENT", Some(handed.join(", "))),
    );
}
