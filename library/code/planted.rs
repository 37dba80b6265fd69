//! Changes planted in the texts, one at a time. The checks must find each, and name the thing.

use crate::checks::{check, grouped, Report};
use crate::processor::{Processor, BOTH};
use crate::Texts;
use Processor::*;

/// The function in which instructions are planted, at its beginning.
const WITHIN: &str = "tiligormis_valid";

/// What is planted, and the check that must find it.
const INSTRUCTIONS: &[(Processor, &str, &str)] = &[
    // registers: of vectors, of one number, of the unit's state
    (Aarch64, "movi\tv0.2d, #0000000000000000", "registers"),
    (Aarch64, "ldp\tq0, q1, [x0]", "registers"),
    (Aarch64, "str\td31, [x0]", "registers"),
    (Aarch64, "fmov\tx9, d8", "registers"),
    (Aarch64, "mrs\tx9, fpcr", "registers"),
    (X86, "movups\t%xmm0, (%rdi)", "registers"),
    (X86, "vmovdqu\t(%rdi), %ymm15", "registers"),
    (X86, "movq\t%mm0, (%rdi)", "registers"),
    (X86, "fldz", "registers"),
    (X86, "emms", "registers"),
    // below the stack pointer
    (Aarch64, "stur\tx9, [sp, #-8]", "below the stack pointer"),
    (Aarch64, "stp\tx9, x10, [sp, #-16]", "below the stack pointer"),
    (X86, "movq\t%rax, -8(%rsp)", "below the stack pointer"),
    (X86, "cmpb\t$0, -128(%rsp)", "below the stack pointer"),
    // names that are neither the archive's nor the two
    (Aarch64, "bl\tmemmove", "names elsewhere"),
    (Aarch64, "adrp\tx9, elsewhere", "names elsewhere"),
    (X86, "callq\tbcmp@PLT", "names elsewhere"),
    (X86, "movq\telsewhere@GOTPCREL(%rip), %rax", "names elsewhere"),
    // a function within itself, one that nobody knows, and a way that does not end
    (Aarch64, "bl\ttiligormis_valid", "stack of tiligormis_valid"),
    (Aarch64, "blr\tx9", "stack of tiligormis_valid"),
    (Aarch64, "b\t.Lelsewhere", "stack of tiligormis_valid"),
    (Aarch64, "br\tx9", "stack of tiligormis_valid"),
    (X86, "callq\ttiligormis_valid", "stack of tiligormis_valid"),
    (X86, "callq\t*%rax", "stack of tiligormis_valid"),
    (X86, "jmp\t.Lelsewhere", "stack of tiligormis_valid"),
    // the stack pointer moved by what is not said, in a loop, or not moved back
    (Aarch64, "sub\tsp, sp, x9", "stack of tiligormis_valid"),
    (Aarch64, "mov\tsp, x9", "stack of tiligormis_valid"),
    (Aarch64, "and\tsp, x9, #0xffffffffffffffc0", "stack of tiligormis_valid"),
    (Aarch64, "str\txzr, [sp], #-16", "stack of tiligormis_valid"),
    (Aarch64, ".Lit:\n\tsub\tsp, sp, #16\n\tcbnz\tx9, .Lit", "stack of tiligormis_valid"),
    (X86, "subq\t%rax, %rsp", "stack of tiligormis_valid"),
    (X86, "movq\t%rax, %rsp", "stack of tiligormis_valid"),
    (X86, "andq\t$-64, %rsp", "stack of tiligormis_valid"),
    (X86, "pushq\t%rax", "stack of tiligormis_valid"),
    (X86, ".Lit:\n\tpushq\t%rax\n\tjne\t.Lit", "stack of tiligormis_valid"),
];

/// Before the function: an instruction that is in none, and a name that data uses.
const BEFORE: &[(&str, &str)] = &[
    ("\t.section\t.text.other\n\tnop\n", "instructions"),
    ("\t.section\t.data.other\n\t.quad\tmemmove\n", "names elsewhere"),
];

/// Functions that call nothing, and use by an index what is below the stack pointer.
const LEAVES: &[&str] = &[
    "\t.type\tleaf,@function\nleaf:\n\tmovq\t%rax, -8(%rsp,%rcx)\n\tretq\n",
    "\t.type\tleaf,@function\nleaf:\n\tmovq\t%rax, -16(%rsp,%rcx,8)\n\tretq\n",
];

pub fn try_all(texts: &Texts, report: &mut Report) {
    for (processor, planted, check) in INSTRUCTIONS {
        let thing = format!("{}, {check}", processor.name());
        within(texts, *processor, &format!("{WITHIN}:\n\t{planted}\n"), &thing, report);
    }
    for leaf in LEAVES {
        let leaf = format!("{leaf}{WITHIN}:\n");
        within(texts, X86, &leaf, "x86-64, below the stack pointer", report);
    }
    for processor in BOTH {
        for (before, check) in BEFORE {
            let thing = format!("{}, {check}", processor.name());
            within(texts, processor, &format!("{before}{WITHIN}:\n"), &thing, report);
        }
        fewer_names(texts, processor, report);
        stated(texts, processor, report);
    }
    let mut changed = texts.clone();
    changed.header =
        texts.header.replacen("*     tiligormis_valid ", "*     tiligormis_invalid ", 1);
    found(&changed, "x86-64, stack of tiligormis_valid", report);
    found(&changed, "x86-64, stack of tiligormis_invalid", report);
}

/// The function's label gives way to a text.
fn within(texts: &Texts, processor: Processor, new: &str, thing: &str, report: &mut Report) {
    let mut changed = texts.clone();
    for text in &mut changed.code[processor as usize] {
        *text = text.replacen(&format!("\n{WITHIN}:"), &format!("\n{new}"), 1);
    }
    found(&changed, thing, report);
}

/// A name that the header speaks of is not used.
fn fewer_names(texts: &Texts, processor: Processor, report: &mut Report) {
    let mut changed = texts.clone();
    for text in &mut changed.code[processor as usize] {
        *text = text.replace("memset", "memcpy");
    }
    found(&changed, &format!("{}, names elsewhere", processor.name()), report);
}

/// The header says a byte less than is taken, and much more.
fn stated(texts: &Texts, processor: Processor, report: &mut Report) {
    let stacks = report.stacks.clone();
    for (name, measured) in &stacks {
        let stack = measured[processor as usize];
        for said in [stack - 1, stack + stack / 10 + 1025] {
            let mut line = measured.map(grouped);
            line[processor as usize] = grouped(said);
            let mut changed = texts.clone();
            changed.header.push_str(&format!("\n * {name} {} {}\n", line[0], line[1]));
            found(&changed, &format!("{}, stack of {name}", processor.name()), report);
        }
    }
}

fn found(changed: &Texts, thing: &str, report: &mut Report) {
    let lines = check(changed).failed;
    report.one(lines.iter().any(|line| line.starts_with(&format!("{thing}:"))), || {
        format!("planted: {thing} is not named: {lines:?}")
    });
}
