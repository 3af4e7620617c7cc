//! The script that proves a program and puts it in target/bin, with a stand-in for the prover: built, run twice at
//! once, not proved, of a name that is no program's, and with a tool missing.

mod common;

use std::fs;
use std::process::Output;

use common::script::{names, said, Scratch};

/// Stands in for rt: notes what it is asked, and the crate whose folder it is in. It writes the program, which is the
/// crate's source, and ends as the file `status` says, as the program would; refuses where there is a file `refused`.
const RT: &str = r#"#!/bin/sh
name=${PWD##*/}
cd ../..
echo "$1 $name $(cat)" >>calls
if [ -e refused ]; then echo "$name is not proved" >&2; exit 1; fi
[ ! -e target/busy ] || { echo "another one runs" >&2; exit 1; }
touch target/busy
mkdir -p "crates/$name/out"
sleep 0.02
cp "crates/$name/src/main.rt" "crates/$name/out/$name"
chmod +x "crates/$name/out/$name"
rm target/busy
echo "what the program prints"
exit "$(cat status)"
"#;

/// What the script and the stand-in need of the system.
const TOOLS: [&str; 13] = [
    "sh", "dirname", "flock", "mkdir", "mktemp", "cat", "chmod", "cp", "mv", "rm", "touch",
    "sleep", "env",
];

/// A repository with two programs and a library.
fn repository(name: &str) -> Scratch {
    let repository = Scratch::new("program", name, &TOOLS);
    repository.write("crates/one/src/main.rt", "one");
    repository.write("crates/two/src/main.rt", "two");
    repository.write("crates/library/src/lib.rt", "library");
    repository.write("status", "0");
    repository.write_tool("rt", RT);
    repository
}

fn run(repository: &Scratch, arguments: &[&str]) -> Output {
    repository.run(arguments).output().expect("it runs")
}

/// The programs are there with these texts, and nothing else is left.
fn assert_there(repository: &Scratch, programs: &[(&str, &str)]) {
    let due: Vec<&str> = programs.iter().map(|(name, _)| *name).collect();
    assert_eq!(names(&repository.at("target/bin")), due);
    for (name, text) in programs {
        assert_eq!(repository.read(&format!("target/bin/{name}")), *text);
    }
    assert_eq!(names(&repository.at("target")), ["bin", "program.lock"]);
}

/// Whatever the program ends with where it is given no input; and a changed one takes the place of the earlier one.
#[test]
fn built() {
    let repository = repository("built");
    for (status, text) in [("0", "one"), ("3", "changed"), ("1", "once more")] {
        repository.write("status", status);
        repository.write("crates/one/src/main.rt", text);
        let output = run(&repository, &["one"]);
        assert!(output.status.success(), "{}", said(&output));
        assert_eq!(said(&output), "", "nothing that the program prints");
        assert_there(&repository, &[("one", text)]);
    }
    assert_eq!(repository.calls(), ["run one "; 3], "with no input");
    assert!(run(&repository, &["two"]).status.success());
    assert_there(&repository, &[("one", "once more"), ("two", "two")]);
}

#[test]
fn at_once() {
    let repository = repository("at once");
    let runs = [&["one"], &["two"], &["one"], &["one"]];
    let running = runs.map(|arguments| repository.run(arguments).spawn().expect("it runs"));
    for one in running {
        let output = one.wait_with_output().unwrap();
        assert!(output.status.success(), "{}", said(&output));
    }
    assert_eq!(repository.calls().len(), runs.len());
    assert_there(&repository, &[("one", "one"), ("two", "two")]);
}

/// What an earlier run built is not taken for this one's, and what stands in target/bin stays.
#[test]
fn not_proved() {
    let repository = repository("not proved");
    assert!(run(&repository, &["one"]).status.success());
    repository.write("crates/one/src/main.rt", "changed");
    repository.write("refused", "");
    for status in ["0", "3"] {
        repository.write("status", status);
        let output = run(&repository, &["one"]);
        assert_eq!(output.status.code(), Some(1));
        let due = "one is not proved\nprogram: one was not built\n";
        assert_eq!(said(&output), due);
        assert_there(&repository, &[("one", "one")]);
    }
}

/// Names that are no program's: nothing is asked, and nothing made.
#[test]
fn no_program() {
    let repository = repository("no program");
    for arguments in [
        &["library"][..],
        &["three"],
        &[""],
        &["../crates/one"],
        &["."],
        &[],
        &["one", "two"],
    ] {
        let output = run(&repository, arguments);
        assert_eq!(output.status.code(), Some(2), "{arguments:?}");
        assert_ne!(said(&output), "");
        assert!(!repository.at("target").exists(), "{arguments:?}");
        assert!(repository.calls().is_empty(), "{arguments:?}");
    }
}

/// Missing tools are named, and nothing is installed.
#[test]
fn missing_tools_are_named() {
    let repository = repository("missing");
    for tool in ["rt", "flock"] {
        fs::rename(repository.at("bin").join(tool), repository.at("away")).unwrap();
        let output = run(&repository, &["one"]);
        assert_eq!(output.status.code(), Some(127));
        assert_eq!(said(&output), format!("{tool} not found\n"));
        fs::rename(repository.at("away"), repository.at("bin").join(tool)).unwrap();
    }
    assert!(run(&repository, &["one"]).status.success());
    assert_there(&repository, &[("one", "one")]);
}
