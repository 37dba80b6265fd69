//! What an instruction does, by the two processors' assembly: where it goes on, how it moves the
//! stack pointer, which registers and names it uses.

use crate::assembly::{number, words, Instruction};

#[derive(Clone, Copy, PartialEq)]
pub enum Processor {
    Aarch64,
    X86,
}
use Processor::*;

pub const BOTH: [Processor; 2] = [Aarch64, X86];

/// Where the processor goes after an instruction.
pub enum Next {
    On,
    To(String),
    OnOrTo(String),
    /// To one of the labels that a table has.
    Table,
    /// Into a function and back.
    Call(String),
    /// Into a function that returns for this one.
    Instead(String),
    /// Into what a register names.
    Unknown,
    Back,
    Nowhere,
}
use Next::*;

/// Memory below the stack pointer: surely, or by an index that may be positive.
#[derive(PartialEq)]
pub enum Below {
    Surely,
    Indexed,
}

/// Words of aarch64's assembly that are no registers by number and no names.
const AARCH64_WORDS: &str = "sp wsp xzr wzr lo12 got got_lo12 \
    lsl lsr asr ror uxtb uxth uxtw uxtx sxtb sxth sxtw sxtx \
    eq ne cs hs cc lo mi pl vs vc hi ls ge lt gt le al nv";

/// The general registers of x86-64 that have no number, with `%rip` and the segments.
const X86_GENERAL: &str = "rax eax ax al ah rbx ebx bx bl bh rcx ecx cx cl ch rdx edx dx dl dh \
    rsi esi si sil rdi edi di dil rbp ebp bp bpl rsp esp sp spl rip cs ds es fs gs ss";

impl Processor {
    pub fn name(self) -> &'static str {
        ["aarch64", "x86-64"][self as usize]
    }

    pub fn comment(self) -> &'static str {
        ["//", "#"][self as usize]
    }

    /// The bytes of stack that a call itself takes, for the address to return to.
    pub fn return_address(self) -> i64 {
        [0, 8][self as usize]
    }

    pub fn next(self, instruction: &Instruction) -> Next {
        let last = instruction.operands.last().map_or("", |operand| operand.as_str());
        let name = words(last).into_iter().next().unwrap_or_default();
        let name = name.strip_suffix("@PLT").unwrap_or(&name).to_string();
        let (local, through) = (name.starts_with(".L"), last.starts_with('*'));
        match (self, instruction.name.as_str()) {
            (Aarch64, "bl") => Call(name),
            (Aarch64, "br") => Table,
            (Aarch64, "ret") => Back,
            (Aarch64, "brk" | "udf") => Nowhere,
            (Aarch64, "cbz" | "cbnz" | "tbz" | "tbnz") => OnOrTo(name),
            (Aarch64, branch) if branch.starts_with("b.") => OnOrTo(name),
            (Aarch64, branch) if branch.starts_with("bl") => Unknown,
            (X86, call) if call.starts_with("call") && through => Unknown,
            (X86, call) if call.starts_with("call") => Call(name),
            (X86, jump) if jump.starts_with("jmp") && through => Table,
            (X86, back) if back.starts_with("ret") => Back,
            (X86, "ud2") => Nowhere,
            (Aarch64, "b") | (X86, "jmp" | "jmpq") if local => To(name),
            (Aarch64, "b") | (X86, "jmp" | "jmpq") => Instead(name),
            (X86, jump) if jump.starts_with('j') => OnOrTo(name),
            _ => On,
        }
    }

    /// By how many bytes the stack grows, or nothing where that is not a number in the text.
    pub fn grows(self, instruction: &Instruction) -> Option<i64> {
        let operands: Vec<&str> = instruction.operands.iter().map(String::as_str).collect();
        match self {
            Aarch64 => aarch64_grows(&instruction.name, &operands),
            X86 => x86_grows(&instruction.name, &operands),
        }
    }

    /// Whether it names a register that is not a general one, or is of the floating-point unit.
    pub fn beyond_general(self, instruction: &Instruction) -> bool {
        let words = instruction.operands.iter().flat_map(|operand| words(operand));
        match self {
            Aarch64 => words.into_iter().any(|word| {
                let register = word.split('.').next().unwrap_or("");
                numbered(register, "vqdshbzp") || word == "fpcr" || word == "fpsr"
            }),
            X86 => {
                let unit = ["emms", "ldmxcsr", "stmxcsr", "vzeroupper", "vzeroall"];
                instruction.name.starts_with('f')
                    || unit.contains(&instruction.name.as_str())
                    || words.into_iter().any(|word| {
                        word.strip_prefix('%').is_some_and(|register| !x86_general(register))
                    })
            }
        }
    }

    /// The names that it uses: of functions and of data, but not its function's own labels.
    pub fn names(self, instruction: &Instruction) -> Vec<String> {
        let words = instruction.operands.iter().flat_map(|operand| words(operand));
        let names = words.filter(|word| !number(word) && !word.starts_with(['.', '%']));
        let names = names.filter(|word| self == X86 || !aarch64_word(word));
        names.map(|word| word.split('@').next().unwrap_or("").to_string()).collect()
    }

    /// Whether it uses memory below the stack pointer.
    pub fn below(self, instruction: &Instruction) -> Option<Below> {
        let operands = instruction.operands.iter();
        match self {
            Aarch64 => operands
                .into_iter()
                .any(|operand| operand.starts_with("[sp, #-") && operand.ends_with(']'))
                .then_some(Below::Surely),
            X86 if instruction.name.starts_with("lea") => None,
            X86 => operands.into_iter().find_map(|operand| {
                let (offset, base) = operand.split_once("(%rsp")?;
                let sure = if base == ")" { Below::Surely } else { Below::Indexed };
                (offset.contains('-') && !from_one(offset, base)).then_some(sure)
            }),
        }
    }
}

/// Whether it is an array that begins at the stack pointer, indexed from 1 on: one element below, times the index. An array
/// that lay below the stack pointer would begin at least two elements below it.
fn from_one(offset: &str, base: &str) -> bool {
    let scale = base.trim_end_matches(')').rsplit_once(',').map(|(_, scale)| scale);
    scale.is_some_and(|scale| scale.parse::<u64>().is_ok_and(|by| offset == format!("-{by}")))
}

fn aarch64_grows(name: &str, operands: &[&str]) -> Option<i64> {
    let number = |text: &str| text.trim_start_matches('#').parse::<i64>().ok();
    match (name, operands) {
        ("cmp" | "cmn" | "tst", _) => Some(0),
        ("sub", ["sp", "sp", by]) => number(by),
        ("add", ["sp", "sp", by]) => number(by).map(|by| -by),
        ("sub", ["sp", "sp", by, "lsl #12"]) => number(by).map(|by| by << 12),
        ("add", ["sp", "sp", by, "lsl #12"]) => number(by).map(|by| -by << 12),
        (_, ["sp", ..]) => None,
        (_, [.., "[sp]", by]) => number(by).map(|by| -by),
        (_, [.., place]) if place.starts_with("[sp,") && place.ends_with("]!") => {
            number(place.trim_start_matches("[sp,").trim_end_matches("]!").trim()).map(|by| -by)
        }
        _ => Some(0),
    }
}

fn x86_grows(name: &str, operands: &[&str]) -> Option<i64> {
    let number = |text: &str| text.strip_prefix('$')?.parse::<i64>().ok();
    match (name, operands) {
        ("pushq", [_]) => Some(8),
        ("popq", [to]) if *to != "%rsp" => Some(-8),
        ("subq", [by, "%rsp"]) => number(by),
        ("addq", [by, "%rsp"]) => number(by).map(|by| -by),
        ("cmpq" | "testq", _) => Some(0),
        ("leave" | "enter", _) => None,
        (_, [.., "%rsp" | "%esp" | "%sp" | "%spl"]) => None,
        (stack, _) if stack.starts_with("push") || stack.starts_with("pop") => {
            stack.starts_with("popcnt").then_some(0)
        }
        _ => Some(0),
    }
}

/// A register by number: one of the letters, then digits.
fn numbered(word: &str, letters: &str) -> bool {
    let number = word.strip_prefix(|first| letters.contains(first)).unwrap_or("");
    !number.is_empty() && number.bytes().all(|digit| digit.is_ascii_digit())
}

fn aarch64_word(word: &str) -> bool {
    let register = word.split('.').next().unwrap_or("");
    numbered(register, "xwvqdshbzp") || AARCH64_WORDS.split_whitespace().any(|known| known == word)
}

fn x86_general(register: &str) -> bool {
    numbered(register.trim_end_matches(['d', 'w', 'b']), "r")
        || X86_GENERAL.split_whitespace().any(|known| known == register)
}
