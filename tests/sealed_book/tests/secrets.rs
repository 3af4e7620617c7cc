//! No branch and no address depends on a key or a text, but for what is told to the caller. A program in C makes the
//! calls under valgrind's memory check, with these bytes marked as undefined; each report names a place of the archive
//! where they decide.
//!
//! Calls that seal and write make no report at all. Those that open make reports at no other places than these calls
//! do with other marks:
//!
//! - `tags`, the tags in the sealed bytes alone: these are for the comparison only, so that a report is of the branch
//!   on its result, or of its callers' on the answer that they get from it. Of calls that accept there are no
//!   fewer where the last byte of each tag alone is marked, `ends`: the bytes do not decide one after the other.
//! - `lengths`, of a book the first two bytes of each ciphertext, where it has at most 16: as these are only added to,
//!   nothing is undefined behind that but the source's length and the tag that is made. There are at most four reports
//!   more for each unit that is accepted, since four comparisons say whether its lengths are in range.
//!
//! And they make as many reports for a text of one length as for a text of any other. A page that is written depends
//! on the sources and on what was typed, and there `lengths` marks these; `sb_score` depends on all it is given, and
//! is not tried.

mod common;

use std::collections::{BTreeMap, BTreeSet};
use std::env;
use std::fs::{self, File};
use std::ops::RangeInclusive;
use std::path::PathBuf;
use std::process::Command;
use std::sync::OnceLock;

use common::document::root;
use common::program::archive;
use reference::cipher::SUITES;

/// A call that the program makes: its line, and what it returns.
#[derive(Clone)]
struct Call {
    line: String,
    returned: u32,
}

fn call(returned: u32, line: String) -> Call {
    Call { line, returned }
}

/// A place that reports speak of: an address in the program or in a library that it has loaded, and the function there.
#[derive(Clone, PartialEq, Eq, PartialOrd, Ord)]
struct Place {
    kind: String,
    object: PathBuf,
    function: String,
    address: String,
}

/// How valgrind calls a report of a branch, and of the address of a load or a store.
const BRANCH: &str = "UninitCondition";
const ADDRESS: &str = "UninitValue";

impl Place {
    /// Whether it is a branch in the program itself, which has the archive.
    fn is_branch(&self) -> bool {
        self.kind == BRANCH && self.object == *program()
    }
}

/// The calls of a run, each with the number of reports that it made, and how many there are of each place.
struct Run {
    calls: Vec<(Call, u64)>,
    places: BTreeMap<Place, u64>,
}

/// The program, compiled once, with addresses that are the same in every run.
fn program() -> &'static PathBuf {
    static PROGRAM: OnceLock<PathBuf> = OnceLock::new();
    PROGRAM.get_or_init(|| {
        let program = PathBuf::from(env!("CARGO_TARGET_TMPDIR")).join("secrets");
        let compiled = Command::new(env::var_os("CC").unwrap_or_else(|| "cc".into()))
            .args(["-std=c99", "-Wall", "-Wextra", "-Werror", "-pedantic"])
            .args(["-O1", "-no-pie", "-I"])
            .arg(root().join("include"))
            .arg(root().join("tests/sealed_book/tests/c/secrets.c"))
            .arg(archive())
            .arg("-o")
            .arg(&program)
            .status()
            .expect("a C compiler runs");
        assert!(compiled.success(), "the program compiles and links");
        program
    })
}

/// Makes the calls with these marks.
fn run(name: &str, marks: &str, calls: &[Call]) -> Run {
    let folder = PathBuf::from(env!("CARGO_TARGET_TMPDIR"));
    let file = |end| folder.join(format!("secrets-{name}-{marks}.{end}"));
    let (input, said) = (file("in"), file("xml"));
    let lines: String = calls.iter().map(|call| call.line.clone() + "\n").collect();
    fs::write(&input, lines).unwrap();
    let output = Command::new("valgrind")
        .args(["--tool=memcheck", "--quiet", "--leak-check=no"])
        .args(["--undef-value-errors=yes", "--track-origins=no"])
        // the archive does not say where callers' frames are, so that places are told apart by one address alone
        .args(["--error-limit=no", "--num-callers=1", "--xml=yes"])
        .arg(format!("--xml-file={}", said.display()))
        .arg(program())
        .arg(marks)
        .env_remove("VALGRIND_OPTS")
        .stdin(File::open(&input).unwrap())
        .output()
        .expect("valgrind runs");
    let errors = String::from_utf8_lossy(&output.stderr);
    assert!(output.status.success(), "{name}, {marks}: {errors}");
    let text = String::from_utf8(output.stdout).expect("text");
    assert_eq!(text.lines().count(), calls.len(), "a line for each call");
    let made = calls.iter().zip(text.lines()).map(|(call, line)| {
        let numbers = line.strip_prefix(&format!("{}: ", call.line));
        let (returned, reports) = numbers.and_then(|n| n.split_once(' ')).expect(line);
        assert_eq!(returned, call.returned.to_string(), "{marks}, {line}");
        (call.clone(), reports.parse().expect(line))
    });
    let run = Run {
        calls: made.collect(),
        places: places(&fs::read_to_string(&said).unwrap()),
    };
    // none outside the calls, as where a length that a call gave depends on a secret
    let within: u64 = run.calls.iter().map(|(_, reports)| reports).sum();
    let all: u64 = run.places.values().sum();
    assert_eq!(within, all, "{name}, {marks}:{}", shown(run.places.keys()));
    run
}

/// What stands between a tag and its end, wherever that is in the text.
fn elements<'a>(text: &'a str, tag: &str) -> Vec<&'a str> {
    let (start, end) = (format!("<{tag}>"), format!("</{tag}>"));
    let parts = text.split(&start[..]).skip(1);
    parts
        .map(|part| part.split_once(&end[..]).expect("an end").0)
        .collect()
}

/// The first of these, or nothing.
fn first<'a>(text: &'a str, tag: &str) -> &'a str {
    elements(text, tag).first().copied().unwrap_or_default()
}

/// The places in what valgrind has written, and how many reports there are of each.
fn places(said: &str) -> BTreeMap<Place, u64> {
    let pairs = elements(said, "pair").into_iter();
    let counts: BTreeMap<&str, u64> = pairs
        .map(|pair| (first(pair, "unique"), first(pair, "count").parse().unwrap()))
        .collect();
    let mut places = BTreeMap::new();
    for error in elements(said, "error") {
        let place = Place {
            kind: first(error, "kind").to_string(),
            object: PathBuf::from(first(error, "obj")),
            function: first(error, "fn").to_string(),
            address: first(error, "ip").to_string(),
        };
        assert!([BRANCH, ADDRESS].contains(&&place.kind[..]), "{error}");
        *places.entry(place).or_default() += counts[first(error, "unique")];
    }
    places
}

/// How many places there are of each kind in each function, and the first of them.
fn shown<'a>(places: impl Iterator<Item = &'a Place>) -> String {
    let mut functions: BTreeMap<(&str, &str), Vec<&str>> = BTreeMap::new();
    for place in places {
        let function = functions.entry((&place.kind, &place.function));
        function.or_default().push(&place.address);
    }
    let lines = functions.into_iter().map(|((kind, function), places)| {
        let (count, first) = (places.len(), places[0]);
        format!("\n  {kind} in {function}: {count} places, {first} and on")
    });
    lines.collect()
}

impl Run {
    /// The number of reports of every call is as is said of it.
    fn assert_reports(&self, expected: impl Fn(&str, u32) -> RangeInclusive<u64>) {
        let others = self.calls.iter().filter_map(|(call, reports)| {
            let expected = expected(&call.line, call.returned);
            let line = format!("\n  {}: {reports}, not {expected:?}", call.line);
            (!expected.contains(reports)).then_some(line)
        });
        let others: Vec<String> = others.collect();
        assert!(
            others.is_empty(),
            "{} calls with another number of reports:{}\nplaces of this run:{}",
            others.len(),
            others[..others.len().min(20)].concat(),
            shown(self.places.keys())
        );
    }

    /// All places are among these.
    fn assert_within(&self, allowed: &BTreeSet<Place>) {
        let others = self.places.keys().filter(|place| !allowed.contains(place));
        let others = shown(others);
        assert!(others.is_empty(), "secrets decide in other places:{others}");
    }

    /// How many reports the call of this line has made.
    fn of(&self, line: &str) -> u64 {
        let mut calls = self.calls.iter();
        calls.find(|(call, _)| call.line == line).expect(line).1
    }

    fn places(&self) -> BTreeSet<Place> {
        self.places.keys().cloned().collect()
    }
}

/// The suites in which every length is tried; the others have some.
const THROUGHOUT: [(u8, u8); 2] = [(1, 10), (2, 12)];

/// So many blocks enciphered, and deciphered again.
fn some_blocks((cipher, steps): (u8, u8), count: usize) -> [Call; 2] {
    ["encipher", "decipher"].map(|name| call(0, format!("{name}_blocks {cipher} {steps} {count}")))
}

/// Up to two groups of 64 blocks and more, in all suites.
fn blocks() -> Vec<Call> {
    let mut calls = Vec::new();
    for suite in SUITES {
        for count in 0..=150 {
            if THROUGHOUT.contains(&suite) || [1, 2, 7, 8, 64, 71, 72].contains(&count) {
                calls.extend(some_blocks(suite, count));
            }
        }
    }
    calls
}

/// Lengths of texts: about the borders of blocks and of runs of blocks, and of what opening deciphers only once.
fn text_lengths() -> Vec<usize> {
    let mut lengths = vec![0, 1, 15, 16, 17, 40, 100, 127, 128, 200, 500];
    lengths.extend(255..=272);
    lengths.extend(1_008..=1_025);
    lengths.extend([1_100, 2_100, 8_192, 8_208, 8_209, 9_000]);
    lengths
}

/// Lengths of headers: among them the longest that go in one run with the text, and those that are one byte longer.
const HEADERS: [usize; 9] = [0, 16, 100, 200, 960, 961, 1_008, 1_009, 1_100];

/// A text sealed, and opened with its tag and with a changed one.
fn there_and_back(suite: (u8, u8), nonce: usize, header: usize, text: usize) -> [Call; 3] {
    let (cipher, steps) = suite;
    let given = format!("{cipher} {steps} {nonce} {header} {text}");
    [
        call(0, format!("seal {given}")),
        call(0, format!("open {given} 0")),
        call(8, format!("open {given} 1")),
    ]
}

/// Texts of all these lengths in all suites.
fn sealings() -> Vec<Call> {
    let mut calls = Vec::new();
    for suite in SUITES {
        for nonce in [1, 15] {
            calls.extend(there_and_back(suite, nonce, 25, 40));
        }
        for header in HEADERS {
            for text in text_lengths() {
                if THROUGHOUT.contains(&suite) || header == 16 || [1, 500].contains(&text) {
                    calls.extend(there_and_back(suite, 12, header, text));
                }
            }
        }
    }
    calls
}

/// The lengths of source and target of a unit whose text has so many bytes, 3 to 8,194: halves where that is even, else
/// the longest source.
fn unit(len: usize) -> (usize, usize) {
    let both = len - 2;
    let source = if len % 2 == 0 {
        both / 2
    } else {
        both.min(4_096)
    };
    (source, both - source)
}

/// Units whose texts have at most 16 bytes. Their book is so short that the walk reads no bytes ahead, which are
/// public, but would be marked here and there.
fn short_units() -> Vec<(usize, usize)> {
    (3..=16).map(unit).collect()
}

/// Units with all those lengths from 17 on, up to the longest, for books of as many units each.
fn long_units() -> Vec<Vec<(usize, usize)>> {
    let lengths = text_lengths().into_iter().chain([4_099, 8_194]);
    let lengths = lengths.filter(|len| (17..=8_194).contains(len));
    let mut units: Vec<_> = lengths.map(unit).collect();
    let count = short_units().len();
    units.resize(units.len().next_multiple_of(count), (1, 0));
    units.chunks(count).map(<[_]>::to_vec).collect()
}

/// A book written.
fn written((cipher, steps): (u8, u8), units: &[(usize, usize)]) -> Vec<Call> {
    let start = format!("start {cipher} {steps}");
    let adds = units.iter().map(|(s, t)| format!("add {s} {t}"));
    let lines = [start].into_iter().chain(adds);
    let lines = lines.chain(["close".to_string()]);
    lines.map(|line| call(0, line)).collect()
}

/// A book of so many units read in all ways, but for the page of one that is whole: each call with how many units it
/// accepts. The last number of a line says which frame has a changed tag, from 1 on, or 0.
fn reading(units: usize) -> Vec<(Call, u64)> {
    let mut calls = Vec::new();
    let changed = (0..4).chain([units / 2, units, units + 1]);
    for changed in changed {
        let (returned, accepted) = match changed {
            0 => (0, units),
            _ => (8, changed - 1),
        };
        let check = call(returned, format!("check {changed}"));
        calls.push((check, accepted as u64));
        if changed > 0 {
            let page = call(8, format!("page 20 {changed}"));
            calls.push((page, accepted as u64));
        }
    }
    for k in 0..=units {
        for changed in [0, k + 1] {
            let returned = match changed {
                0 if k == units => 16,
                0 => 0,
                _ => 8,
            };
            for name in ["fetch", "fetch_at"] {
                let fetch = call(returned, format!("{name} {k} {changed}"));
                calls.push((fetch, u64::from(returned == 0)));
            }
        }
    }
    calls
}

fn only_calls(calls: &[(Call, u64)]) -> Vec<Call> {
    calls.iter().map(|(call, _)| call.clone()).collect()
}

/// The page of a whole book.
fn whole_page() -> Call {
    call(0, "page 20 0".to_string())
}

/// The marks are seen: an address and a branch in the program itself, and the tables that a single block is looked up
/// in. And nothing else is: without marks there is no report.
#[test]
fn what_must_be_reported() {
    let run_with = |marks, calls: &[Call]| run("control", marks, calls);
    let mut calls = ["look_up", "branch"]
        .map(|line| call(0, line.to_string()))
        .to_vec();
    for (cipher, steps) in SUITES {
        calls.push(call(0, format!("encipher {cipher} {steps}")));
        calls.push(call(0, format!("decipher {cipher} {steps}")));
    }
    let seen = run_with("secrets", &calls);
    seen.assert_reports(|line, _| match line {
        "look_up" | "branch" => 1..=1,
        _ => 1..=u64::MAX,
    });
    for place in seen.places.keys() {
        let in_branch = place.function == "branch";
        assert_eq!(
            place.kind == BRANCH,
            in_branch,
            "{}",
            shown([place].into_iter())
        );
    }

    for count in [1, 8, 64, 72] {
        calls.extend(some_blocks((1, 10), count));
    }
    calls.extend(there_and_back((1, 10), 12, 25, 200));
    calls.extend(written((2, 12), &long_units()[0]));
    calls.extend(only_calls(&reading(long_units()[0].len())));
    calls.push(whole_page());
    run_with("none", &calls).assert_reports(|_, _| 0..=0);
}

/// Many blocks make no report, and sealing makes none. Opening makes those of the comparison.
#[test]
fn blocks_sealing_and_opening() {
    let run_with = |marks, calls: &[Call]| run("sealing", marks, calls);
    let lengths = text_lengths().into_iter();
    let openings = lengths.flat_map(|text| there_and_back((1, 10), 12, 0, text));
    let openings: Vec<Call> = openings.collect();
    let compared = run_with("tags", &openings);
    let ends = run_with("ends", &openings);
    compared.assert_reports(|line, returned| match returned {
        _ if !line.starts_with("open") => 0..=0,
        0 => 1..=ends.of(line),
        _ => 1..=u64::MAX,
    });

    let allowed = compared.places();
    let branches = allowed.iter().all(Place::is_branch);
    assert!(branches, "no addresses:{}", shown(allowed.iter()));

    let all = run_with("secrets", &[blocks(), sealings()].concat());
    all.assert_reports(|line, _| {
        let words: Vec<&str> = line.split(' ').collect();
        let reports = match words[..] {
            ["open", .., text, changed] => compared.of(&format!("open 1 10 12 0 {text} {changed}")),
            _ => 0,
        };
        reports..=reports
    });
    all.assert_within(&allowed);
}

/// Writing a book makes no report. Checking and fetching make those of the comparison and of the source's length, and
/// a page makes these before it is written.
#[test]
fn books() {
    let run_with = |marks, calls: &[Call]| run("books", marks, calls);
    let short = short_units();
    let reading = reading(short.len());
    let accepted: BTreeMap<&str, u64> = reading
        .iter()
        .map(|(call, accepted)| (&call.line[..], *accepted))
        .collect();
    let calls = [written((1, 10), &short), only_calls(&reading)].concat();
    let compared = run_with("tags", &calls);
    let ends = run_with("ends", &calls);
    compared.assert_reports(|line, returned| match (accepted.get(line), returned) {
        (None, _) => 0..=0,
        (Some(_), 0) => 1..=ends.of(line),
        (Some(_), _) => 0..=u64::MAX,
    });
    let at_most = |line: &str, _| match accepted.get(line) {
        None => 0..=0,
        Some(accepted) => 0..=compared.of(line) + 4 * accepted,
    };
    let lengths = run_with("lengths", &calls);
    lengths.assert_reports(at_most);
    let allowed = &compared.places() | &lengths.places();
    let branches = allowed.iter().all(Place::is_branch);
    assert!(branches, "no addresses:{}", shown(allowed.iter()));

    let of_short = run_with("secrets", &calls);
    of_short.assert_reports(at_most);
    of_short.assert_within(&allowed);

    let mut calls = Vec::new();
    for suite in SUITES {
        let books = long_units();
        let some = if THROUGHOUT.contains(&suite) {
            books.len()
        } else {
            1
        };
        for units in &books[..some] {
            calls.extend([written(suite, units), only_calls(&reading)].concat());
        }
    }
    let of_long = run("long-books", "secrets", &calls);
    of_long.assert_reports(|line, _| {
        let reports = accepted.get(line).map_or(0, |_| of_short.of(line));
        reports..=reports
    });
    of_long.assert_within(&allowed);

    // what is written on a page depends on the sources
    let calls = [&written((1, 10), &short)[..], &[whole_page()]].concat();
    let [page, sources] = ["secrets", "lengths"].map(|marks| run("page", marks, &calls));
    page.assert_within(&(&allowed | &sources.places()));
    assert!(page.of(&whole_page().line) > of_short.of("page 20 1"));
}
