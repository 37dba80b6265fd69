//! Reads the assembly that the kit's compiler writes: which functions there are, and their
//! instructions.

use std::collections::{BTreeMap, BTreeSet};

pub struct Instruction {
    pub name: String,
    pub operands: Vec<String>,
    /// As it stands in the text, to be shown.
    pub text: String,
}

/// A function's instructions, and the one that each of its labels stands before.
#[derive(Default)]
pub struct Function {
    pub code: Vec<Instruction>,
    pub labels: BTreeMap<String, usize>,
}

/// One text of assembly, of which an object is made.
#[derive(Default)]
pub struct Module {
    pub functions: BTreeMap<String, Function>,
    /// The functions that other objects may call.
    pub exported: BTreeSet<String>,
    /// The names that data uses: labels to which a jump by a table may go, and any other.
    pub data: BTreeSet<String>,
    /// Instructions that are in no function.
    pub stray: Vec<Instruction>,
}

/// The directives that data is written in.
const DATA: [&str; 7] = [".byte", ".hword", ".short", ".word", ".long", ".xword", ".quad"];

/// Reads a text in which `comment` begins a comment.
pub fn read(text: &str, comment: &str) -> Module {
    let lines: Vec<&str> =
        text.lines().map(|line| line.split(comment).next().unwrap_or("").trim()).collect();
    let functions = directives(&lines, ".type\t", ",@function");
    let mut module = Module { exported: directives(&lines, ".globl\t", ""), ..Module::default() };
    let mut inside = String::new();
    for line in lines {
        let function = module.functions.get_mut(&inside);
        if let Some(label) = line.strip_suffix(':').map(plain) {
            if functions.contains(&label) {
                module.functions.insert(label.clone(), Function::default());
                inside = label;
            } else if let Some(function) = function {
                function.labels.insert(label, function.code.len());
            }
        } else if line.starts_with(".section") {
            inside.clear();
        } else if DATA.contains(&line.split('\t').next().unwrap_or("")) {
            module.data.extend(words(line).into_iter().skip(1).filter(|word| !number(word)));
        } else if !line.starts_with('.') {
            function.map_or(&mut module.stray, |inside| &mut inside.code).extend(instruction(line));
        }
    }
    module
}

/// What the directives of one name name.
fn directives(lines: &[&str], name: &str, end: &str) -> BTreeSet<String> {
    let said = lines.iter().filter_map(|line| line.strip_prefix(name)?.strip_suffix(end));
    said.map(plain).collect()
}

fn instruction(said: &str) -> Option<Instruction> {
    let (name, rest) = said.split_once('\t').unwrap_or((said, ""));
    (!name.is_empty()).then(|| Instruction {
        name: name.to_string(),
        operands: operands(rest),
        text: said.replace('\t', " "),
    })
}

/// The operands, which commas part; those within brackets and quotes part nothing.
fn operands(text: &str) -> Vec<String> {
    let (mut parts, mut deep, mut quoted) = (vec![String::new()], 0, false);
    for letter in text.chars() {
        match letter {
            '"' => quoted = !quoted,
            '(' | '[' | '{' if !quoted => deep += 1,
            ')' | ']' | '}' if !quoted => deep -= 1,
            _ => {}
        }
        if letter == ',' && deep == 0 && !quoted {
            parts.push(String::new());
        } else if let Some(part) = parts.last_mut() {
            part.push(letter);
        }
    }
    parts.iter().map(|part| part.trim().to_string()).filter(|part| !part.is_empty()).collect()
}

/// The words of a text: names, registers and numbers. A name in quotes is one word.
pub fn words(text: &str) -> Vec<String> {
    let mut all = Vec::new();
    for (place, part) in text.split('"').enumerate() {
        if place % 2 == 1 {
            all.push(part.to_string());
            continue;
        }
        let separates = |letter: char| !letter.is_alphanumeric() && !"_.%@".contains(letter);
        all.extend(part.split(separates).filter(|word| !word.is_empty()).map(str::to_string));
    }
    all
}

pub fn number(word: &str) -> bool {
    word.starts_with(|first: char| first.is_ascii_digit())
}

/// A name without its quotes.
fn plain(name: &str) -> String {
    name.trim().trim_matches('"').to_string()
}
