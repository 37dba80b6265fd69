//! That the crate needs nothing of std; that it needs no `alloc` either is seen where it is compiled
//! without that feature.

use super::*;

/// The crate's files by their names, without the tests.
macro_rules! files {
    ($($name:literal)*) => { [$(($name, include_str!(concat!("../", $name, ".rs")))),*] };
}

const FILES: [(&str, &str); 10] =
    files!["lib" "answers" "ffi" "lent" "log" "numbers" "operations" "owned" "slots" "structs"];

/// How often a text names a crate, comments aside; `std::mem` names std.
fn named(name: &str, text: &str) -> usize {
    let code = text.lines().map(|line| line.split("//").next().unwrap_or(""));
    let words = code.flat_map(|line| line.split(|c: char| !c.is_alphanumeric() && c != '_'));
    words.filter(|word| *word == name).count()
}

/// The modules of a text that are files of their own.
fn modules(text: &str) -> Vec<&str> {
    text.lines().filter_map(|line| line.strip_prefix("mod ")?.strip_suffix(';')).collect()
}

#[test]
fn nothing_of_std_is_named() {
    for (name, text) in FILES {
        // lib.rs names it for the tests alone
        let tests = text.matches("#[cfg(test)]\nextern crate std;\n").count();
        assert_eq!(tests, usize::from(name == "lib"), "{name}");
        assert_eq!(named("std", text), tests, "{name}");
    }
}

#[test]
fn every_file_is_looked_at() {
    let mut names: Vec<&str> = FILES[1..].iter().map(|(name, _)| *name).collect();
    names.push("tests");
    for (name, text) in FILES {
        assert_eq!(modules(text), if name == "lib" { names.clone() } else { Vec::new() }, "{name}");
    }
}

#[test]
fn what_is_named_is_found() {
    assert_eq!(named("std", "use std::mem;\n"), 1);
    assert_eq!(named("std", "let a = ::std::mem::take(b); // std\n"), 1);
    assert_eq!(named("std", "#![no_std]\n/// of std\nuse core::mem;\n"), 0);
}
