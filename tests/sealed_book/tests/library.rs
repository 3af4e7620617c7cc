//! The script that proves the library and joins its archive, with a stand-in for the prover: run twice at
//! once, with nothing changed, with a proof that fails, with a tool missing, with another kit, and what it
//! says of what was proved.

mod common;

use std::fs;
use std::ops::Deref;
use std::process::Command;

use common::script::{names, said, Scratch};

/// Stands in for rt: prints the file `kit` as its version. Else it notes what it is asked and the crate whose
/// folder it is in. What it says of a crate is the file of its name in `says`: of a library that others use,
/// only where it is another than the one that it was built by, or where it is checked. Of a crate for C it
/// writes the archive, with a member that says what the source was; refuses where there is a file `refused`.
const RT: &str = r#"#!/bin/sh
if [ "$1" = version ]; then cat kit; exit; fi
name=${PWD##*/}
cd ../..
echo "$1 $name" >>calls
out=crates/$name/out
mkdir -p "$out"
case "$1 $name" in
"lib c_"*) ;;
"lib "*)
    cmp -s "says/$name" "$out/built" || cat "says/$name"
    cp "says/$name" "$out/built"
    exit
    ;;
*) exec cat "says/$name" ;;
esac
if [ -e refused ]; then echo "$name is not proved"; exit 1; fi
cat "says/$name"
[ ! -e target/busy ] || { echo "another one runs"; exit 1; }
touch target/busy
sleep 0.02
cp crates/c_blocks/source "target/$name.o"
ar crD "$out/lib$name.a" "target/$name.o"
rm "target/$name.o" target/busy
"#;

const CRATES: [&str; 6] = [
    "c_blocks",
    "c_sealing",
    "c_writer_c",
    "c_reader",
    "c_page",
    "c_clear",
];

/// The crates of the repository: `state` and `bits` are used by those, `report` by none of them, and `io` is
/// a library of the kit.
const CRATES_TXT: &str = "
# ground
bits:
state: bits io

c_blocks staticlib: state
c_sealing staticlib:
c_writer_c staticlib:
c_reader staticlib: state
c_page staticlib: state
c_clear staticlib: # and not report
report: c_clear
";

/// Each crate with its number of functions.
const FUNCTIONS: [(&str, usize); 9] = [
    ("bits", 0),
    ("state", 1),
    ("c_blocks", 2),
    ("c_sealing", 4),
    ("c_writer_c", 8),
    ("c_reader", 16),
    ("c_clear", 32),
    ("report", 64),
    ("c_page", 128),
];

/// The line on these: the functions of all but `report`.
const PROVED: &str = "proved: 191 functions in 8 crates, 0 failed\n";

const KIT: &str = "kit 1 logic 11";

/// What the script needs of the system.
const TOOLS: [&str; 19] = [
    "sh",
    "dirname",
    "find",
    "sort",
    "sha256sum",
    "flock",
    "awk",
    "grep",
    "mkdir",
    "mktemp",
    "cat",
    "cp",
    "mv",
    "rm",
    "cmp",
    "touch",
    "sleep",
    "ar",
    "env",
];

/// What the prover says of a crate whose functions are all proved.
fn all_proved(name: &str, functions: usize) -> String {
    let lines: String = (0..functions)
        .map(|k| format!("fn {name}::f{k}: proved\n"))
        .collect();
    format!(
        "{lines}library std: modules loaded=2 checked=0\ncrate {name}: modules loaded=2 checked=1\n\
        logic=proved functions={functions} sum=09\n"
    )
}

/// A repository with the script, one source and the stand-in.
struct Repository(Scratch);

impl Deref for Repository {
    type Target = Scratch;

    fn deref(&self) -> &Scratch {
        &self.0
    }
}

impl Repository {
    fn new(name: &str) -> Repository {
        let repository = Repository(Scratch::new("library", name, &TOOLS));
        repository.write("crates.txt", CRATES_TXT);
        repository.write("rattle-version", &format!("{KIT}\n"));
        repository.write("kit", &format!("{KIT}\n"));
        for (name, functions) in FUNCTIONS {
            fs::create_dir_all(repository.at("crates").join(name)).unwrap();
            repository.says(name, &all_proved(name, functions));
        }
        repository.write("crates/c_blocks/source", "one");
        repository.write_tool("rt", RT);
        repository
    }

    /// What the prover is to say of a crate.
    fn says(&self, name: &str, text: &str) {
        self.write(&format!("says/{name}"), text);
    }

    /// The line beside the archive.
    fn line(&self) -> String {
        self.read("target/staticlib/libsealed_book.proved")
    }

    /// Runs it; what rt was asked, of which crates.
    fn proved(&self, arguments: &[&str]) -> Vec<String> {
        fs::remove_file(self.at("calls")).ok();
        let output = self.run(arguments).output().expect("it runs");
        assert!(output.status.success(), "{}", said(&output));
        self.calls()
    }

    /// Runs it, and it fails for this reason; what was said.
    fn fails(&self, reason: &str) -> String {
        let output = self.run(&[]).output().expect("it runs");
        let said = said(&output);
        assert_eq!(output.status.code(), Some(1), "{reason}: {said}");
        said
    }

    /// The archive in this folder has the crates' members, made from this source, and nothing else is there
    /// but what is named.
    fn assert_whole(&self, folder: &str, source: &str, besides: &[&str]) {
        let archive = self.at(folder).join("libsealed_book.a");
        let list = Command::new("ar").arg("t").arg(&archive).output().unwrap();
        let mut members: Vec<String> = said(&list).lines().map(str::to_string).collect();
        members.sort();
        let mut expected = CRATES.map(|name| format!("{name}.o"));
        expected.sort();
        assert_eq!(members, expected);
        let content = Command::new("ar").arg("p").arg(&archive).output().unwrap();
        assert_eq!(said(&content), source.repeat(CRATES.len()));
        let mut there = names(&self.at(folder));
        there.retain(|name| name != "libsealed_book.a");
        assert_eq!(there, besides);
        let rest = ["library.lock", "log", "staticlib"];
        assert_eq!(names(&self.at("target")), rest);
    }
}

/// Each crate is proved once, behind those below it.
fn once() -> Vec<String> {
    asked(&[])
}

/// The same, where rt says nothing of these two or one of them, and what it said is not known.
fn asked(again: &[&str]) -> Vec<String> {
    let mut calls = Vec::new();
    for name in ["bits", "state"].iter().chain(&CRATES) {
        calls.push(format!("lib {name}"));
        if again.contains(name) {
            calls.push(format!("check {name}"));
        }
    }
    calls
}

/// What stands beside the archive.
const BESIDE: [&str; 2] = ["libsealed_book.proved", "libsealed_book.sum"];

#[test]
fn at_once() {
    let repository = Repository::new("at once");
    // folders that are there and not, absolute and not, and with a blank
    let absolute = repository.at("absolute");
    let folders = ["at once/a folder", absolute.to_str().unwrap()];
    for source in ["one", "two"] {
        repository.write("crates/c_blocks/source", source);
        fs::remove_file(repository.at("calls")).ok();
        let runs = [&[][..], &folders[..1], &folders[1..], &[], &folders[..1]];
        let running = runs.map(|arguments| repository.run(arguments).spawn().expect("it runs"));
        for one in running {
            let output = one.wait_with_output().unwrap();
            assert!(output.status.success(), "{}", said(&output));
        }
        assert_eq!(repository.calls(), once());
        repository.assert_whole("target/staticlib", source, &BESIDE);
        repository.assert_whole("a folder", source, &[]);
        repository.assert_whole("absolute", source, &[]);
    }
}

#[test]
fn nothing_where_nothing_changed() {
    let repository = Repository::new("nothing changed");
    let none: [String; 0] = [];
    assert_eq!(repository.proved(&[]), once());
    let changed = || {
        let archive = repository.at("target/staticlib/libsealed_book.a");
        fs::metadata(archive).unwrap().modified().unwrap()
    };
    let before = changed();
    assert_eq!(repository.proved(&[]), none);
    assert_eq!(repository.proved(&["nothing changed/out"]), none);
    repository.assert_whole("out", "one", &[]);
    assert_eq!(changed(), before);
    // the same bytes, written later
    repository.write("crates/c_blocks/source", "one");
    assert_eq!(repository.proved(&[]), none);
    assert_eq!(changed(), before);

    // a document
    repository.write("crates/README.md", "one");
    repository.write("crates/c_blocks/README.md", "one");
    assert_eq!(repository.proved(&[]), none, "a document");
    assert_eq!(changed(), before, "a document");

    // what rt makes
    repository.write("crates/state/out/more", "one");
    assert_eq!(repository.proved(&[]), none, "what rt makes");
    assert_eq!(changed(), before, "what rt makes");

    // a proof may be named so
    let out = "crates/c_blocks/proofs/out";
    fs::create_dir_all(repository.at(out)).unwrap();

    let changes: [(&str, &dyn Fn()); 9] = [
        ("a source", &|| {
            repository.write("crates/c_blocks/source", "two")
        }),
        ("one more", &|| repository.write("crates/c_blocks/more", "")),
        ("a proof", &|| repository.write(&format!("{out}/more"), "")),
        ("one less", &|| repository.remove("crates/c_blocks/more")),
        ("crates.txt", &|| {
            repository.write("crates.txt", &format!("{CRATES_TXT}#"))
        }),
        ("another archive", &|| {
            repository.write("target/staticlib/libsealed_book.a", "!<arch>\n")
        }),
        ("no archive", &|| {
            repository.remove("target/staticlib/libsealed_book.a")
        }),
        ("another line", &|| {
            repository.write("target/staticlib/libsealed_book.proved", "proved\n")
        }),
        ("no line", &|| {
            repository.remove("target/staticlib/libsealed_book.proved")
        }),
    ];
    for (name, change) in changes {
        change();
        assert_eq!(repository.proved(&[]), once(), "{name}");
        assert_eq!(repository.proved(&[]), none, "{name}");
        repository.assert_whole("target/staticlib", "two", &BESIDE);
        assert_eq!(repository.line(), PROVED, "{name}");
    }
}

#[test]
fn a_failed_proof_keeps_the_archive() {
    let repository = Repository::new("failed");
    assert_eq!(repository.proved(&["failed/out"]), once());
    repository.write("crates/c_blocks/source", "two");
    repository.write("refused", "");
    for _ in 0..2 {
        let output = repository.run(&["failed/out"]).output().expect("it runs");
        assert_eq!(output.status.code(), Some(1));
        assert!(said(&output).contains("c_blocks is not proved"));
        repository.assert_whole("target/staticlib", "one", &BESIDE);
        repository.assert_whole("out", "one", &[]);
    }
    repository.remove("refused");
    assert_eq!(repository.proved(&["failed/out"]), once());
    repository.assert_whole("out", "two", &[]);
}

/// Missing tools are named, and nothing is installed.
#[test]
fn missing_tools_are_named() {
    let repository = Repository::new("missing");
    assert_eq!(repository.proved(&[]), once());
    for (tool, needed_always) in [
        ("rt", false),
        ("ar", false),
        ("flock", true),
        ("sha256sum", true),
    ] {
        fs::rename(repository.at("bin").join(tool), repository.at("away")).unwrap();
        let output = repository.run(&[]).output().expect("it runs");
        assert_eq!(output.status.success(), !needed_always, "{}", said(&output));
        repository.write("crates/c_blocks/source", tool);
        let output = repository.run(&[]).output().expect("it runs");
        assert_eq!(output.status.code(), Some(127));
        assert_eq!(said(&output), format!("{tool} not found\n"));
        fs::rename(repository.at("away"), repository.at("bin").join(tool)).unwrap();
        assert_eq!(repository.proved(&[]), once());
        repository.assert_whole("target/staticlib", tool, &BESIDE);
    }
}

/// The line has the functions of the crates that the archive is made of, and stays and goes with it.
#[test]
fn the_line_is_that_of_the_archive() {
    let repository = Repository::new("line");
    // what was said of others does not count
    fs::create_dir_all(repository.at("target/log")).unwrap();
    for name in ["report", "io"] {
        repository.write(&format!("target/log/{name}.say"), &all_proved(name, 64));
    }
    // nor is it a verdict on another crate
    let state = format!("{}{}", all_proved("bits", 256), all_proved("state", 1));
    repository.says("state", &state);
    assert_eq!(repository.proved(&[]), once());
    repository.assert_whole("target/staticlib", "one", &BESIDE);
    assert_eq!(repository.line(), PROVED);

    repository.write("crates/c_blocks/source", "two");
    repository.says("state", &all_proved("state", 101));
    repository.write("refused", "");
    repository.fails("a failed proof");
    repository.assert_whole("target/staticlib", "one", &BESIDE);
    assert_eq!(repository.line(), PROVED);

    repository.remove("refused");
    assert_eq!(repository.proved(&[]), once());
    repository.assert_whole("target/staticlib", "two", &BESIDE);
    let line = "proved: 291 functions in 8 crates, 0 failed\n";
    assert_eq!(repository.line(), line);
}

/// Stands in for mv: of several files it moves the first, and fails.
const MV: &str = r#"#!/bin/sh
[ $# -gt 2 ] || exec whole_mv "$@"
for folder; do :; done
whole_mv "$1" "$folder"
exit 1
"#;

/// Where a run is stopped between archive and line, no line of an earlier archive is left.
#[test]
fn no_line_of_another_archive() {
    let repository = Repository::new("another archive");
    assert_eq!(repository.proved(&[]), once());
    repository.write("crates/c_blocks/source", "two");
    fs::rename(repository.at("bin/mv"), repository.at("bin/whole_mv")).unwrap();
    repository.write_tool("mv", MV);
    repository.fails("stopped");
    repository.assert_whole("target/staticlib", "two", &BESIDE[1..]);
    fs::rename(repository.at("bin/whole_mv"), repository.at("bin/mv")).unwrap();
    assert_eq!(repository.proved(&[]), once());
    repository.assert_whole("target/staticlib", "two", &BESIDE);
}

/// Where the prover ends well and does not say that all is proved, what is missing is named, and the archive
/// that was there stays.
#[test]
fn what_is_not_proved_is_named() {
    let repository = Repository::new("not proved");
    assert_eq!(repository.proved(&[]), once());
    repository.write("crates/c_blocks/source", "two");
    let refused = |sentence: &str| {
        let said = repository.fails(sentence);
        let last = said.lines().last().unwrap_or_default();
        assert!(last.starts_with(sentence), "{said:?} for {sentence:?}");
        assert_eq!(said.matches("library: not proved").count(), 1, "{said}");
        repository.assert_whole("target/staticlib", "one", &BESIDE);
        assert_eq!(repository.line(), PROVED);
    };
    for (name, functions) in FUNCTIONS.into_iter().take(3) {
        let proved = all_proved(name, functions);
        let no_verdict = format!("library: not proved: crate {name},");
        for line in ["g: not proved", "g: no proof: expected `g-spec`"] {
            let line = format!("fn {name}::{line}");
            repository.says(name, &format!("{line}\n{proved}"));
            refused(&format!("library: not proved: {line}"));
        }
        for text in ["", &proved.replace("=proved", "=not-proved")] {
            repository.says(name, text);
            refused(&no_verdict);
        }
        repository.says(name, &proved);
    }
    // used, and the prover says nothing of it
    let used = CRATES_TXT.replace("c_writer_c staticlib:", "c_writer_c staticlib: report");
    repository.says("report", "");
    repository.write("crates.txt", &used);
    refused("library: not proved: crate report,");

    // what was said in such a run does not count
    repository.write("crates.txt", CRATES_TXT);
    assert_eq!(repository.proved(&[]), asked(&["bits", "state"]));
    repository.assert_whole("target/staticlib", "two", &BESIDE);
}

/// Where what the prover said is lost, or of other files, and it says nothing now, it is asked.
#[test]
fn what_was_said_is_lost() {
    let repository = Repository::new("lost");
    assert_eq!(repository.proved(&[]), once());
    let of_others = all_proved("report", 64);
    let losses: [(&str, &[&str], &dyn Fn()); 7] = [
        ("nothing", &[], &|| ()),
        ("all", &["bits", "state"], &|| {
            fs::remove_dir_all(repository.at("target/log")).unwrap()
        }),
        ("the verdict", &["state"], &|| {
            repository.write("target/log/state.say", "fn state::f0: proved\n")
        }),
        ("whose it is", &["state"], &|| {
            let log = "target/log/state.say";
            let said = fs::read_to_string(repository.at(log)).unwrap();
            let (sum, _) = said.split_once('\n').unwrap();
            repository.write(log, &format!("{sum}\n{of_others}"));
        }),
        ("a source", &["state"], &|| {
            repository.write("crates/state/source", "one")
        }),
        ("one below", &["bits", "state"], &|| {
            repository.write("crates/bits/source", "one")
        }),
        ("the kit", &["bits", "state"], &|| {
            repository.write("kit", "kit 2 logic 22\n")
        }),
    ];
    for (name, again, lose) in losses {
        lose();
        repository.write("crates/c_blocks/source", name);
        assert_eq!(repository.proved(&[]), asked(again), "{name}");
        assert_eq!(repository.line(), PROVED, "{name}");
    }
}

/// An archive that an earlier run left is not taken where rt makes none: the crate is no static library.
#[test]
fn no_archive_of_an_earlier_run() {
    let repository = Repository::new("no archive");
    assert_eq!(repository.proved(&[]), once());
    repository.write("crates/c_blocks/source", "two");
    let none = RT.replace(
        "ar crD \"$out/lib$name.a\"",
        "[ $name = c_page ] || ar crD \"$out/lib$name.a\"",
    );
    repository.write_tool("rt", &none);
    let said = repository.fails("no archive");
    assert!(said.contains("crates/c_page/out/libc_page.a"), "{said}");
    repository.assert_whole("target/staticlib", "one", &BESIDE);
}

/// The lines on two kits.
fn kits(pinned: &str, here: &str) -> String {
    format!(
        "library: the kit of these proofs is {pinned}; the kit here is {here}.\n\
        Everything is proved anew by the kit that is here, so that nothing unproved is built, \
        but a proof may fail.\n"
    )
}

/// Another kit than that of rattle-version proves; both are named, and once more behind what fails.
#[test]
fn another_kit_is_named() {
    const ANOTHER: &str = "kit 2 logic 22";
    let repository = Repository::new("another kit");
    let passes = |source: &str| {
        repository.write("crates/c_blocks/source", source);
        let output = repository.run(&[]).output().expect("it runs");
        assert!(output.status.success(), "{}", said(&output));
        repository.assert_whole("target/staticlib", source, &BESIDE);
        said(&output)
    };
    let begun = passes("the same");
    assert!(!begun.contains("kit"), "{begun}");

    repository.write("kit", &format!("{ANOTHER}\n"));
    assert_eq!(passes("the same"), "", "nothing is proved");
    let both = kits(KIT, ANOTHER);
    assert_eq!(passes("another"), format!("{both}{begun}"));

    repository.write("crates/c_blocks/source", "refused");
    repository.write("refused", "");
    let said = repository.fails("a failed proof");
    assert_eq!(said, format!("{both}{begun}c_blocks is not proved\n{both}"));
    repository.remove("refused");
    // of another source, so that what was said before does not count
    repository.write("crates/state/source", "another");
    repository.says("state", "");
    let said = repository.fails("no verdict");
    assert!(said.contains("library: not proved: crate state,"), "{said}");
    assert!(said.ends_with(&both), "{said}");
    repository.says("state", &all_proved("state", 1));

    repository.remove("rattle-version");
    let unknown = "unknown, for the file rattle-version is missing";
    let both = kits(unknown, ANOTHER);
    assert_eq!(passes("no file"), format!("{both}{begun}"));
}
