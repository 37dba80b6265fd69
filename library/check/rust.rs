//! The declarations of the Rust crate over the library, read: ffi.rs, numbers.rs and structs.rs.

use crate::side::{Function, Kind, Named, Side};
use crate::tokens::{bare, block, parts, tokens};
use crate::value::evaluated;

pub fn read(ffi: &str, numbers: &str, structs: &str) -> Side {
    let mut side = Side::default();
    let code = bare(numbers);
    let lists = ["\nnumbers! {", "\nrefusals! {"].into_iter().flat_map(|name| {
        code.match_indices(name).filter_map(|(at, _)| block(&code[at..], "{")).collect::<Vec<_>>()
    });
    for part in lists.flat_map(|list| parts(list, ';')) {
        let Some((head, value)) = part.split_once('=') else { continue };
        // of a refusal its case and its meaning follow
        let value = value.split(',').next().unwrap_or("");
        if let (Some(name), Some(value)) = (tokens(head).first(), evaluated(value, &side.numbers)) {
            side.numbers.insert(name.to_string(), value);
        }
    }
    read_structs(&bare(structs), &mut side);
    read_functions(&bare(ffi), &mut side);
    side
}

fn read_structs(code: &str, side: &mut Side) {
    let mut rest = code;
    while let Some(at) = rest.find("pub struct ") {
        rest = &rest[at + "pub struct ".len()..];
        let name = tokens(rest)[0];
        let fields = parts(block(rest, "{").unwrap_or(""), ',');
        let fields = fields
            .iter()
            .map(|field| field_of(field, side).unwrap_or_else(|| Named::unread(field)))
            .collect();
        side.structs.insert(name.to_string(), fields);
    }
}

/// A field: `pub NAME: TYPE` or `pub NAME: [TYPE; COUNT]`.
fn field_of(text: &str, side: &Side) -> Option<Named> {
    let (head, kind) = text.split_once(':')?;
    let name = *tokens(head).last()?;
    match tokens(kind)[..] {
        [kind] => Some(Named::new(name, Kind::Value(kind.to_string()))),
        ["[", kind, ";", count, "]"] => {
            let count = *side.numbers.get(count)?;
            Some(Named { name: name.to_string(), kind: Kind::Value(kind.to_string()), count })
        }
        _ => None,
    }
}

/// The entries, which the macro `entries!` declares, and the functions that are declared by
/// themselves.
fn read_functions(code: &str, side: &mut Side) {
    let lent = block(code, "pub fn $entry(").unwrap_or("");
    let lent = lent.split("$(").next().unwrap_or("");
    let entries = code.find("\nentries! {").and_then(|at| block(&code[at..], "{")).unwrap_or("");
    for entry in parts(entries, ';') {
        let Some((pointer, rest)) = entry.split_once(' ') else { continue };
        let list = lent.replace("$pointer", pointer) + block(rest, "(").unwrap_or("");
        declare(rest, &list, side);
    }
    let alone = code.rfind("\nextern \"C\" {").and_then(|at| block(&code[at..], "{")).unwrap_or("");
    for declared in parts(alone, ';') {
        let Some(rest) = declared.strip_prefix("pub fn ") else { continue };
        declare(rest, block(rest, "(").unwrap_or(""), side);
    }
}

/// Takes in a function: its name comes first in `text`, its result last.
fn declare(text: &str, list: &str, side: &mut Side) {
    let name = tokens(text)[0].to_string();
    let parameters = parts(list, ',')
        .iter()
        .map(|part| parameter_of(part).unwrap_or_else(|| Named::unread(part)))
        .collect();
    let result = text.rsplit_once("->").map_or("()", |(_, result)| result.trim());
    side.functions.insert(name, Function { parameters, result: Kind::Value(result.to_string()) });
}

fn parameter_of(text: &str) -> Option<Named> {
    let (name, kind) = text.split_once(':')?;
    let kind = match tokens(kind)[..] {
        ["*", pointer, to] => Kind::Pointer { mutable: pointer == "mut", to: to.to_string() },
        [kind] => Kind::Value(kind.to_string()),
        _ => return None,
    };
    Some(Named::new(name.trim(), kind))
}
