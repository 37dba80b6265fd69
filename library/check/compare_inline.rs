//! The inline functions of the header against what they stand for.

use crate::compare::{Report, Sides, HEADER};
use crate::inline::Inline;
use crate::side::Kind;
use crate::tokens::{block, parts, tokens};

pub fn compare(sides: &Sides, report: &mut Report) {
    every_function(sides, report);
    made(sides, report);
    refusals(sides, report);
    rows(sides, report);
    blocks(sides, report);
    entries(sides, report);
    records(sides, report);
    fields(sides, report);
    version(sides, report);
}

fn list(numbers: &[u64]) -> String {
    numbers.iter().map(u64::to_string).collect::<Vec<_>>().join(", ")
}

/// The entries: what takes a machine first.
fn entry_names(sides: &Sides) -> Vec<&str> {
    let functions = sides.header.side.functions.iter().filter(|(_, function)| {
        function.parameters.first().is_some_and(|first| first.name == "machine")
    });
    functions.filter_map(|(name, _)| name.strip_prefix("tiligormis_")).collect()
}

/// No inline function is left out of what is compared here.
fn every_function(sides: &Sides, report: &mut Report) {
    let operations = &sides.header.operations;
    let mut known: Vec<String> = ["refusal_name", "refusal_sentence", "box_of"]
        .iter()
        .chain(RECORDS.iter().map(|(short, _)| short))
        .map(|name| name.to_string())
        .chain(FIELDS.iter().map(|(field, ..)| format!("entry_{field}")))
        .chain(entry_names(sides).iter().map(|name| format!("box_{name}")))
        .chain(operations.iter().map(|operation| format!("row_{}", operation.name.to_lowercase())))
        .collect();
    known.sort();
    let names = sides.header.inlines.keys();
    let found: Vec<&str> = names.filter_map(|name| name.strip_prefix("tiligormis_")).collect();
    report.same(
        "inline functions",
        (HEADER, Some(found.join(", "))),
        ("what is compared", Some(known.join(", "))),
    );
}

/// A box is made of the arrays that an entry takes, in order.
fn made(sides: &Sides, report: &mut Report) {
    let made = sides.header.inlines.get("tiligormis_box_of").map(|inline| {
        let list = block(&inline.body, "{").unwrap_or("");
        let arrays = parts(list, ',').into_iter().take(sides.header.lent.len());
        arrays.map(|array| array.trim_start_matches("tables->")).collect::<Vec<_>>().join(", ")
    });
    let lent = sides.header.lent.iter().map(|(name, _)| name.as_str());
    report.same(
        "tiligormis_box_of",
        (HEADER, made),
        ("TILIGORMIS_LENT", Some(lent.collect::<Vec<_>>().join(", "))),
    );
}

/// The names are the constants', and the sentences are the comments beside them; a number that is
/// no refusal's has "unknown" for both.
fn refusals(sides: &Sides, report: &mut Report) {
    let texts = |name: &str| sides.header.inlines.get(name).map_or(vec![], Inline::texts);
    let names = texts("tiligormis_refusal_name");
    let sentences = texts("tiligormis_refusal_sentence");
    let all = || sides.header.refusals.iter().chain(&sides.header.log_refusals);
    let count = all().map(|(_, number, _)| *number as usize + 1).max();
    report.same("names of refusals", (HEADER, Some(names.len())), ("the enums", count));
    report.same("sentences of refusals", (HEADER, Some(sentences.len())), ("the enums", count));
    for at in 0..count.unwrap_or(0) {
        let listed = all().find(|(_, number, _)| *number as usize == at);
        let name = listed.map_or("unknown".to_string(), |(name, ..)| format!("TILIGORMIS_{name}"));
        let said = listed.map_or("unknown", |(_, _, said)| said).to_string();
        report.same(
            &format!("name of refusal {at}"),
            ("the enums", Some(name)),
            ("tiligormis_refusal_name", names.get(at).cloned()),
        );
        report.same(
            &format!("sentence of refusal {at}"),
            ("the enums", Some(said).filter(|said| !said.is_empty())),
            ("tiligormis_refusal_sentence", sentences.get(at).cloned()),
        );
    }
}

/// A constructor gives the operation's number and its parameters in order. These are what the
/// enum's comment lists, by the first word of each, and what the source reads of such a row.
fn rows(sides: &Sides, report: &mut Report) {
    for operation in &sides.header.operations {
        let name = format!("tiligormis_row_{}", operation.name.to_lowercase());
        let row = sides.header.inlines.get(&name);
        let names = operation.arguments.iter().map(|argument| argument.as_str());
        let names: Vec<&str> = names.collect();
        let parameters = names.iter().map(|name| format!("uint64_t {name}"));
        let parameters = parameters.collect::<Vec<_>>().join(", ");
        report.same(
            &format!("{name}, parameters"),
            ("the enum", Some(parameters)),
            (HEADER, row.map(|row| row.parameters.join(", "))),
        );
        let mut numbers = vec![format!("TILIGORMIS_{}", operation.name)];
        numbers.extend(names.iter().map(|name| name.to_string()));
        let body = format!("tiligormis_row row = {{{{{}}}}}; return row;", numbers.join(", "));
        let one_line = |text: &str| tokens(text).join(" ");
        report.same(
            &format!("{name}, body"),
            ("the enum", Some(format!("tiligormis_row: {}", one_line(&body)))),
            (HEADER, row.map(|row| format!("{}: {}", row.result, one_line(&row.body)))),
        );
        let kinds = names.iter().map(|name| match *name {
            "left" | "right" => "vm",
            name => name,
        });
        let read = sides.source.operations.get(&operation.number);
        report.same(
            &format!("{name}, arguments"),
            (HEADER, Some(kinds.collect::<Vec<_>>().join(", "))),
            ("crates/rows", read.map(|read| read.values().cloned().collect::<Vec<_>>().join(", "))),
        );
    }
}

/// The block before a constructor has the operation's number, and refusals in the manual's order.
fn blocks(sides: &Sides, report: &mut Report) {
    for operation in &sides.header.operations {
        let name = format!("tiligormis_row_{}", operation.name.to_lowercase());
        let told = sides.header.inlines.get(&name).and_then(Inline::told);
        let number = told.as_ref().map(|(number, _)| *number);
        report.same(
            &format!("{name}, number"),
            (HEADER, number),
            ("the enum", Some(operation.number)),
        );
        let manual = sides.manual.get(&operation.number).map(|told| list(&told.refusals));
        report.same(
            &format!("{name}, refusals"),
            (HEADER, told.map(|(_, refusals)| list(&refusals))),
            ("docs/MACHINE.md", manual),
        );
    }
}

/// Of each entry the function over a box hands on the box, and every length after that by the
/// number of words that one of its things has.
fn entries(sides: &Sides, report: &mut Report) {
    for entry in entry_names(sides) {
        let short = format!("tiligormis_box_{entry}");
        let long = format!("tiligormis_{entry}");
        let given = sides.header.inlines.get(&short).and_then(|inline| inline.call(&long));
        let first = given.as_ref().and_then(|given| given.first().cloned());
        report.same(
            &format!("{short}, box"),
            (HEADER, first),
            (&long, Some("TILIGORMIS_LENT ( box )".to_string())),
        );
        let own =
            sides.header.side.functions[&long].parameters.iter().skip(2 * sides.header.lent.len());
        for (at, parameter) in own.enumerate() {
            if parameter.kind != Kind::Value("usize".to_string()) {
                continue;
            }
            let words = given.as_ref().and_then(|given| given.get(at + 1)?.split(' ').next());
            report.same(
                &format!("{short}, {}", parameter.name),
                (HEADER, words.map(String::from)),
                (&long, Some(length_of(&parameter.name))),
            );
        }
    }
}

/// What is handed on as a length: of a log the bytes that it has, of a place and of a count one
/// number, of anything else the numbers of one of its things.
fn length_of(parameter: &str) -> String {
    match parameter.split('_').next().unwrap_or("") {
        "log" => "log_bytes".to_string(),
        "place" | "taken" => "1".to_string(),
        things => format!("TILIGORMIS_{}_NUMBERS", things.trim_end_matches('s').to_uppercase()),
    }
}

/// The functions over a record, and those over numbers that they call.
const RECORDS: [(&str, &str); 2] = [("read_record", "log_read"), ("write_record", "log_write")];

/// A function over a record hands on all that it is given, in order, and every length.
fn records(sides: &Sides, report: &mut Report) {
    for (short, long) in RECORDS {
        let (short, long) = (format!("tiligormis_{short}"), format!("tiligormis_{long}"));
        let given = sides.header.inlines.get(&short).and_then(|inline| inline.call(&long));
        let asked = sides.header.side.functions.get(&long).map(|long| &long.parameters[..]);
        for (at, parameter) in asked.unwrap_or(&[]).iter().enumerate() {
            let words = given.as_ref().and_then(|given| given.get(at)?.split(' ').next());
            let expected = match parameter.kind {
                Kind::Pointer { .. } => parameter.name.clone(),
                Kind::Value(_) => length_of(&parameter.name),
            };
            report.same(
                &format!("{short}, {}", parameter.name),
                (HEADER, words.map(String::from)),
                (&long, Some(expected)),
            );
        }
    }
}

/// The fields of an entry, and what the source calls their lowest bits and how many numbers they
/// can hold.
const FIELDS: [(&str, &str, Option<&str>); 4] = [
    ("filled", "FILLED_BIT", None),
    ("page", "PAGE_BIT", Some("PAGE_FIELD")),
    ("access", "ACCESS_BIT", Some("ACCESS_FIELD")),
    ("generation", "GENERATION_BIT", Some("GENERATION_FIELD")),
];

fn fields(sides: &Sides, report: &mut Report) {
    let numbers = &sides.source.side.numbers;
    for (name, bit, width) in FIELDS {
        let function = format!("tiligormis_entry_{name}");
        let field = sides.header.inlines.get(&function).and_then(Inline::field);
        report.same(
            &format!("{function}, bit"),
            (HEADER, field.map(|field| field.0)),
            ("crates/numbers", numbers.get(bit).copied()),
        );
        let held = width.map_or(Some(2), |width| numbers.get(width).copied());
        report.same(
            &format!("{function}, numbers"),
            (HEADER, field.map(|field| field.1)),
            ("crates/numbers", held),
        );
    }
}

/// The header's version is the Rust crate's, without what comes after the second number.
fn version(sides: &Sides, report: &mut Report) {
    let said = |name: &str| sides.header.versions.get(name).copied();
    let (major, minor) = (said("VERSION_MAJOR"), said("VERSION_MINOR"));
    let both = major.zip(minor);
    report.same(
        "version",
        (HEADER, both.map(|(major, minor)| format!("{major}.{minor}"))),
        ("bindings/rust/Cargo.toml", sides.version.clone()),
    );
    report.same(
        "TILIGORMIS_VERSION",
        (HEADER, said("VERSION")),
        ("its parts", both.map(|(major, minor)| 1000 * major + minor)),
    );
}
