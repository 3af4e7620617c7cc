//! The programs for the shell, and the archive.

use std::env;
use std::path::PathBuf;

use super::document::root;

/// The program of this name: target/bin at the repository's root has it, or a variable names another,
/// NAME_BIN with the name in capitals.
pub fn program(name: &str) -> PathBuf {
    let variable = format!("{}_BIN", name.to_uppercase());
    let program = match env::var_os(&variable) {
        Some(program) => PathBuf::from(program),
        None => root().join("target/bin").join(name),
    };
    assert!(
        program.is_file(),
        "there is no program {}: make it with `./program {name}` at the repository's root, or name another \
         in {variable}",
        program.display()
    );
    program
}

/// The archive with the functions for C: that of the repository, or of the folder that SEALED_BOOK_LIB names.
pub fn archive() -> PathBuf {
    let folder = match env::var_os("SEALED_BOOK_LIB") {
        Some(folder) => PathBuf::from(folder),
        None => root().join("target/staticlib"),
    };
    folder.join("libsealed_book.a")
}
