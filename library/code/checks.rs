//! What is asked of the code, of each processor.

use crate::assembly::{self, Function, Instruction};
use crate::processor::{Below, Next, Processor, BOTH};
use crate::stack::Archive;
use crate::Texts;
use std::collections::{BTreeMap, BTreeSet};

/// What the library calls.
const CALLED: [&str; 2] = ["memcpy", "memset"];

/// How many checks passed, what did not, what was counted for each processor, and the stack of
/// each function on both.
#[derive(Default)]
pub struct Report {
    pub passed: usize,
    pub failed: Vec<String>,
    pub counted: [String; 2],
    pub stacks: BTreeMap<String, [i64; 2]>,
}

impl Report {
    pub fn one(&mut self, good: bool, wrong: impl FnOnce() -> String) {
        if good {
            self.passed += 1;
        } else {
            self.failed.push(wrong());
        }
    }

    /// The header's table as it should stand: what was measured, up to the next 256 bytes.
    pub fn table(&self) -> String {
        let mut lines =
            vec![format!(" * {:<28}{:>8}{:>10}", "    bytes of stack", "aarch64", "x86-64")];
        for (name, stacks) in &self.stacks {
            let [aarch64, x86] = stacks.map(|stack| grouped((stack + 255) / 256 * 256));
            lines.push(format!(" *     {name:<24}{aarch64:>8}{x86:>10}"));
        }
        lines.join("\n")
    }
}

pub fn check(texts: &Texts) -> Report {
    let mut report = Report::default();
    let stated = stated(&texts.header);
    for processor in BOTH {
        let code = &texts.code[processor as usize];
        let modules = code.iter().map(|text| assembly::read(text, processor.comment())).collect();
        let archive = Archive { processor, modules };
        instructions(&archive, &mut report);
        stacks(&archive, &stated, &mut report);
    }
    report
}

/// What is counted in the code of an archive.
#[derive(Default)]
struct Found<'a> {
    all: usize,
    stray: usize,
    beyond_general: Vec<&'a Instruction>,
    below: Vec<&'a Instruction>,
    elsewhere: BTreeSet<String>,
}

impl<'a> Found<'a> {
    fn module(&mut self, archive: &'a Archive, place: usize) {
        let module = &archive.modules[place];
        self.stray += module.stray.len();
        let code = module.functions.values().flat_map(|function| &function.code);
        let names = code.flat_map(|instruction| archive.processor.names(instruction));
        let names = names.chain(module.data.iter().filter(|name| !name.starts_with(".L")).cloned());
        self.elsewhere.extend(names.filter(|name| archive.resolve(place, name).is_none()));
        for function in module.functions.values() {
            self.function(archive.processor, function);
        }
    }

    fn function(&mut self, processor: Processor, function: &'a Function) {
        let code = &function.code;
        let calls = code.iter().any(|one| matches!(processor.next(one), Next::Call(_)));
        self.all += code.len();
        self.beyond_general.extend(code.iter().filter(|one| processor.beyond_general(one)));
        self.below.extend(code.iter().filter(|one| match processor.below(one) {
            Some(Below::Surely) => true,
            // A function that calls keeps nothing there, since a call would overwrite it.
            Some(Below::Indexed) => !calls,
            None => false,
        }));
    }
}

/// No instruction is on other registers or below the stack pointer, and the names are two.
fn instructions(archive: &Archive, report: &mut Report) {
    let mut found = Found::default();
    for place in 0..archive.modules.len() {
        found.module(archive, place);
    }
    let Found { all, stray, beyond_general, below, elsewhere } = found;
    let name = archive.processor.name();
    report.counted[archive.processor as usize] = format!(
        "{name}: {} instructions, {} on other than general registers, {} below the stack pointer; \
         calls {}",
        grouped(all as i64),
        grouped(beyond_general.len() as i64),
        below.len(),
        elsewhere.iter().cloned().collect::<Vec<_>>().join(" and ")
    );
    let many = |found: &[&Instruction]| format!("{}, `{}` the first", found.len(), found[0].text);
    report.one(all > 0 && stray == 0, || {
        format!("{name}, instructions: {all} in functions, {stray} in none")
    });
    report
        .one(beyond_general.is_empty(), || format!("{name}, registers: {}", many(&beyond_general)));
    report.one(below.is_empty(), || format!("{name}, below the stack pointer: {}", many(&below)));
    report.one(elsewhere.iter().eq(CALLED.iter()), || {
        format!("{name}, names elsewhere: {elsewhere:?}")
    });
}

/// Each exported function takes no more stack than the header says, and not much less.
fn stacks(archive: &Archive, stated: &BTreeMap<String, [i64; 2]>, report: &mut Report) {
    let which = archive.processor as usize;
    let mut exported = BTreeSet::new();
    for (place, module) in archive.modules.iter().enumerate() {
        exported.extend(module.exported.iter().map(|name| (name.clone(), place)));
    }
    for (name, place) in &exported {
        let thing = format!("{}, stack of {name}", archive.processor.name());
        let stack = match archive.stack(*place, name, &[]) {
            Ok(stack) => stack,
            Err(why) => {
                report.failed.push(format!("{thing}: {why}"));
                continue;
            }
        };
        report.stacks.entry(name.clone()).or_default()[which] = stack;
        let said = stated.get(name).map_or(-1, |stated| stated[which]);
        let most = (stack + stack / 10).max(stack + 1024);
        report.one((stack..=most).contains(&said), || match said {
            -1 => format!("{thing}: {stack} bytes, and the header says nothing"),
            _ => format!("{thing}: {stack} bytes, and the header says {said}"),
        });
    }
    for name in stated.keys() {
        report.one(exported.iter().any(|(other, _)| other == name), || {
            format!("{}, stack of {name}: there is no such function", archive.processor.name())
        });
    }
}

/// The header's table: a line has a function's name and two numbers.
fn stated(header: &str) -> BTreeMap<String, [i64; 2]> {
    let number = |word: &str| word.replace(',', "").parse::<i64>().ok();
    let line = |line: &str| match line.split_whitespace().collect::<Vec<_>>()[..] {
        ["*", name, aarch64, x86] if name.starts_with("tiligormis_") => {
            Some((name.to_string(), [number(aarch64)?, number(x86)?]))
        }
        _ => None,
    };
    header.lines().filter_map(line).collect()
}

/// A number with a comma before every three digits.
pub fn grouped(number: i64) -> String {
    match number {
        1000.. => format!("{},{:03}", grouped(number / 1000), number % 1000),
        _ => number.to_string(),
    }
}
