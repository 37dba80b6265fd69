//! Tells cargo which libtiligormis.a to link: the one that TILIGORMIS_LIBRARY names, else the one
//! that `library/build` leaves. Where there is none, it says which command makes it.

use std::path::PathBuf;
use std::{env, fs, process};

fn main() {
    println!("cargo:rerun-if-env-changed=TILIGORMIS_LIBRARY");
    let archive = given().unwrap_or_else(built);
    println!("cargo:rerun-if-changed={}", archive.display());
    // linked under the one name that the crate asks for, whatever the file's own is
    let folder = PathBuf::from(said("OUT_DIR"));
    if let Err(error) = fs::copy(&archive, folder.join("libtiligormis.a")) {
        stop(&format!("{}: {error}", archive.display()));
    }
    println!("cargo:rustc-link-search=native={}", folder.display());
}

/// The archive that TILIGORMIS_LIBRARY names, if it names one. Cargo runs this in the crate's folder,
/// so that a path from anywhere else would be looked for in the wrong place.
fn given() -> Option<PathBuf> {
    let file = env::var_os("TILIGORMIS_LIBRARY").filter(|file| !file.is_empty())?;
    let archive = PathBuf::from(file);
    if !archive.is_absolute() {
        stop(&format!("TILIGORMIS_LIBRARY is no whole path, from / on: {}", archive.display()));
    }
    if !archive.is_file() {
        stop(&format!("TILIGORMIS_LIBRARY names no file: {}", archive.display()));
    }
    Some(archive)
}

/// The archive that `library/build` leaves for the target.
fn built() -> PathBuf {
    let target = said("TARGET");
    let (folder, command) = if target == said("HOST") {
        (String::new(), "library/build".to_string())
    } else {
        let bare = said("CARGO_CFG_TARGET_OS") == "none";
        let arch = said("CARGO_CFG_TARGET_ARCH");
        let triple = if bare { format!("{arch}-none-elf") } else { target };
        (format!("/{triple}"), format!("TILIGORMIS_TARGET={triple} library/build"))
    };
    let mut root = PathBuf::from(said("CARGO_MANIFEST_DIR"));
    root.pop();
    root.pop();
    let archive = root.join(format!("target/library{folder}/libtiligormis.a"));
    if !archive.is_file() {
        stop(&format!(
            "there is no {}. Make it with  {command}  in {}, \
             or name one by its whole path in TILIGORMIS_LIBRARY.",
            archive.display(),
            root.display()
        ));
    }
    archive
}

/// What cargo tells a build script.
fn said(name: &str) -> String {
    env::var(name).unwrap_or_else(|_| stop(&format!("cargo does not say {name}")))
}

fn stop(why: &str) -> ! {
    eprintln!("tiligormis: {why}");
    process::exit(1)
}
