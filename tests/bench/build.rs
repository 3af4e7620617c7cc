//! Compiles the baseline in C with -O3 and links it. CC and AR name other tools than gcc and ar.

use std::env;
use std::path::Path;
use std::process::Command;

fn main() {
    let source = "../../bench/baseline.c";
    println!("cargo:rerun-if-changed=build.rs");
    println!("cargo:rerun-if-changed={source}");
    println!("cargo:rerun-if-env-changed=CC");
    println!("cargo:rerun-if-env-changed=AR");

    let folder = env::var("OUT_DIR").expect("cargo sets OUT_DIR");
    let object = format!("{folder}/baseline.o");
    let archive = format!("{folder}/libbaseline.a");
    run(
        "CC",
        "gcc",
        &[
            "-O3", "-Wall", "-Wextra", "-fPIC", "-c", source, "-o", &object,
        ],
    );
    if Path::new(&archive).exists() {
        std::fs::remove_file(&archive).expect("the old archive can be removed");
    }
    run("AR", "ar", &["crs", &archive, &object]);
    println!("cargo:rustc-link-search=native={folder}");
    println!("cargo:rustc-link-lib=static=baseline");
}

/// Runs the tool that the variable names, else the usual one.
fn run(variable: &str, usual: &str, arguments: &[&str]) {
    let tool = env::var(variable).unwrap_or_else(|_| usual.to_string());
    let mut words = tool.split_whitespace();
    let status = Command::new(words.next().unwrap_or(usual))
        .args(words)
        .args(arguments)
        .status()
        .unwrap_or_else(|error| panic!("{tool}: {error}"));
    assert!(status.success(), "{tool} {arguments:?}: {status}");
}
