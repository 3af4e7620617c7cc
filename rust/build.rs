//! Proves the library, has its archive put into cargo's folder for this script's output, and links it.
//!
//! Where the variable SEALED_BOOK_LIB has the absolute path of a folder, the archive there is linked
//! instead, and nothing is proved.

use std::env;
use std::fs;
use std::path::{Path, PathBuf};
use std::process::{exit, Command};

const ARCHIVE: &str = "libsealed_book.a";

/// What to do where the library cannot be proved here.
const INSTEAD: &str =
    "set SEALED_BOOK_LIB to the absolute path of the folder that has libsealed_book.a";

fn main() {
    println!("cargo:rerun-if-changed=build.rs");
    println!("cargo:rerun-if-env-changed=SEALED_BOOK_LIB");
    match folder() {
        Ok(folder) => {
            println!("cargo:rustc-link-search=native={}", folder.display());
            println!("cargo:rustc-link-lib=static=sealed_book");
        }
        Err(sentence) => {
            eprintln!("{sentence}");
            exit(1);
        }
    }
}

/// The folder of the archive, or a sentence that says why there is none.
fn folder() -> Result<PathBuf, String> {
    let target = ["CARGO_CFG_TARGET_ARCH", "CARGO_CFG_TARGET_OS"].map(variable);
    if target != ["x86_64", "linux"] {
        let [arch, os] = target;
        return Err(format!(
            "{ARCHIVE} is for x86-64 Linux, and this is a build for {arch} {os}"
        ));
    }
    match env::var_os("SEALED_BOOK_LIB") {
        Some(folder) => given(PathBuf::from(folder)),
        None => proved(),
    }
}

/// The folder that SEALED_BOOK_LIB names.
fn given(folder: PathBuf) -> Result<PathBuf, String> {
    let archive = folder.join(ARCHIVE);
    println!("cargo:rerun-if-changed={}", archive.display());
    if folder.is_absolute() && archive.is_file() {
        return Ok(folder);
    }
    let folder = folder.display();
    Err(format!("no {ARCHIVE} in {folder:?}: {INSTEAD}"))
}

/// The folder for this script's output, with the archive that is made from the repository's crates once
/// they are proved.
fn proved() -> Result<PathBuf, String> {
    let root = Path::new(&variable("CARGO_MANIFEST_DIR")).join("..");
    let mut sources = ["crates.txt", "library"]
        .map(|name| root.join(name))
        .to_vec();
    for folder in entries(&root.join("crates")) {
        // but what the prover makes there
        let made = folder.join("out");
        sources.extend(entries(&folder).into_iter().filter(|entry| *entry != made));
    }
    for source in sources {
        println!("cargo:rerun-if-changed={}", source.display());
    }
    let folder = PathBuf::from(variable("OUT_DIR"));
    let script = root.join("library");
    let output = Command::new(&script).arg(&folder).output();
    let output = output.map_err(|error| format!("{}: {error}: {INSTEAD}", script.display()))?;
    let said = String::from_utf8_lossy(&output.stderr);
    match output.status.code() {
        Some(0) => Ok(folder),
        // a tool is missing, and the last line names it
        Some(127) => Err(format!("{}: {INSTEAD}", last_line(&said))),
        _ => Err(format!("{said}library: {}: {INSTEAD}", output.status)),
    }
}

/// What is in a folder; nothing where it is none.
fn entries(folder: &Path) -> Vec<PathBuf> {
    let entries = fs::read_dir(folder).into_iter().flatten().flatten();
    entries.map(|entry| entry.path()).collect()
}

fn last_line(said: &str) -> &str {
    said.lines().last().unwrap_or_default()
}

/// A variable that cargo sets.
fn variable(name: &str) -> String {
    env::var(name).unwrap_or_else(|_| panic!("cargo sets {name}"))
}
