//! Checks that include/tiligormis.h, the declarations of the Rust crate over the library and the
//! Rattle sources say the same: functions, parameters, limits, refusals, operations and sizes; and
//! that the header's inline functions say what its declarations do. Its one argument is the
//! repository. Then it changes what it read, one thing at a time, and sees that
//! each change is found. It prints a line for what differs, and how much it compared.

mod c;
mod compare;
mod compare_inline;
mod inline;
mod manual;
mod planted;
mod rattle;
mod rust;
mod side;
mod tokens;
mod value;

use std::path::Path;
use std::{env, fs, process};

/// Every text that is read, by its path; of a crate all that stands in its src/.
#[derive(Clone)]
pub struct Texts {
    header: String,
    ffi: String,
    numbers: String,
    structs: String,
    cargo: String,
    manual: String,
    list: String,
    crates: rattle::Crates,
}

impl Texts {
    fn read(root: &Path) -> Texts {
        let text = |path: &str| {
            fs::read_to_string(root.join(path))
                .unwrap_or_else(|error| stop(&format!("{path}: {error}")))
        };
        let list = text("crates.txt");
        let names = list
            .lines()
            .filter(|line| !line.starts_with('#'))
            .filter_map(|line| line.split([':', ' ']).next());
        Texts {
            header: text("include/tiligormis.h"),
            ffi: text("bindings/rust/src/ffi.rs"),
            numbers: text("bindings/rust/src/numbers.rs"),
            structs: text("bindings/rust/src/structs.rs"),
            cargo: text("bindings/rust/Cargo.toml"),
            manual: text("docs/MACHINE.md"),
            crates: names
                .map(|name| {
                    (name.to_string(), sources(&root.join("crates").join(name).join("src")))
                })
                .collect(),
            list,
        }
    }

    fn compared(&self) -> compare::Report {
        compare::compare(&compare::Sides {
            header: c::read(&self.header),
            rust: rust::read(&self.ffi, &self.numbers, &self.structs),
            source: rattle::read(&self.crates),
            manual: manual::read(&self.manual),
            crates: manual::static_libraries(&self.list),
            version: manual::version(&self.cargo),
        })
    }
}

/// The files of a folder, one after the other by their names.
fn sources(folder: &Path) -> String {
    let files = fs::read_dir(folder)
        .unwrap_or_else(|error| stop(&format!("{}: {error}", folder.display())));
    let mut paths: Vec<_> = files.filter_map(|file| file.ok().map(|file| file.path())).collect();
    paths.sort();
    paths.iter().filter_map(|path| fs::read_to_string(path).ok()).collect()
}

fn stop(why: &str) -> ! {
    eprintln!("library/check: {why}");
    process::exit(1)
}

fn main() {
    let root = env::args().nth(1).unwrap_or_else(|| stop("which repository?"));
    let texts = Texts::read(Path::new(&root));
    let mut report = texts.compared();
    if report.failed.is_empty() {
        planted::try_all(&texts, &mut report);
    }
    for line in &report.failed {
        println!("{line}");
    }
    let result = if report.failed.is_empty() { "ok" } else { "FAILED" };
    println!("test result: {result}. {} passed; {} failed;", report.passed, report.failed.len());
    process::exit(i32::from(!report.failed.is_empty()))
}
