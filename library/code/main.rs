//! Checks the library's machine code by the assembly that it is made of, for both processors: that
//! it uses general registers alone and no memory below the stack pointer, that it calls memcpy and
//! memset and nothing else, and that each function takes the stack that include/tiligormis.h says.
//! Its arguments are the repository and the folders of the assembly for aarch64 and x86-64. Then it
//! changes what it read, one thing at a time, and sees that each change is found. It prints a line
//! for what is wrong, what it counted, and how many checks that was.

mod assembly;
mod checks;
mod planted;
mod processor;
mod stack;

use processor::BOTH;
use std::path::Path;
use std::{env, fs, process};

/// Every text that is read: the header, and for each processor the assembly of each crate.
#[derive(Clone)]
pub struct Texts {
    header: String,
    code: [Vec<String>; 2],
}

fn text(path: &Path) -> String {
    fs::read_to_string(path).unwrap_or_else(|error| stop(&format!("{}: {error}", path.display())))
}

/// The assembly in a folder, by the files' names.
fn assembly(folder: &Path) -> Vec<String> {
    let files = fs::read_dir(folder)
        .unwrap_or_else(|error| stop(&format!("{}: {error}", folder.display())));
    let mut paths: Vec<_> = files.filter_map(|file| file.ok().map(|file| file.path())).collect();
    paths.retain(|path| path.extension().is_some_and(|extension| extension == "s"));
    paths.sort();
    paths.iter().map(|path| text(path)).collect()
}

fn stop(why: &str) -> ! {
    eprintln!("library/code: {why}");
    process::exit(1)
}

fn main() {
    let given: Vec<String> = env::args().skip(1).collect();
    let [root, aarch64, x86] = &given[..] else { stop("a repository and two folders, please") };
    let texts = Texts {
        header: text(&Path::new(root).join("include/tiligormis.h")),
        code: [aarch64, x86].map(|folder| assembly(Path::new(folder))),
    };
    let mut report = checks::check(&texts);
    for processor in BOTH {
        println!("{}", report.counted[processor as usize]);
    }
    if report.failed.is_empty() {
        planted::try_all(&texts, &mut report);
    }
    for line in &report.failed {
        println!("{line}");
    }
    if report.failed.iter().any(|line| line.contains(", stack of ")) {
        println!("{}", report.table());
    }
    let result = if report.failed.is_empty() { "ok" } else { "FAILED" };
    println!("test result: {result}. {} passed; {} failed;", report.passed, report.failed.len());
    process::exit(i32::from(!report.failed.is_empty()))
}
