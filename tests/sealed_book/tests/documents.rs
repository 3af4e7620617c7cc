//! The documents against the tree: every link and path leads somewhere, every name in TRACE and PROOFS stands where it is
//! said to stand, every quote is one, every crate has its row, and the README's code is compiled and run. Each test prints
//! all places that fail, with file and line.

mod common;

use std::collections::{BTreeMap, BTreeSet};
use std::env;
use std::fs;
use std::path::{Component, Path, PathBuf};
use std::process::{Command, Output};
use std::sync::OnceLock;

use common::document::{
    all, assert_none, code, date, one, parts_of, read, rising_dates, root, Block, Document, Fence,
    Heading, Kind, Part, Placed, Row, Source, WHOLE,
};

/// Folders of the repository that a path in a document begins with.
const FOLDERS: [&str; 8] = [
    "crates", "tests", "docs", "rust", "include", "examples", "bench", "tools",
];

/// Files that are named with their ending.
const ENDINGS: [&str; 7] = [".rs", ".rt", ".antt", ".md", ".c", ".h", ".txt"];

/// Hosts of package registries: nothing here comes from one.
const REGISTRIES: [&str; 6] = [
    "crates.io",
    "npmjs.",
    "pypi.",
    "rubygems.",
    "maven.org",
    "pkg.go.dev",
];

/// Words about how a text was made, and not about the product; in two pieces, so that they do not stand here either.
const WORDS: [&str; 2] = [concat!("ses", "sion"), concat!("hel", "per")];

fn exists(path: &str) -> bool {
    root().join(path).exists()
}

/// README, CHANGELOG, that of the crates, and all that is in docs.
fn documents() -> Vec<Document> {
    let names = ["README.md", "CHANGELOG.md", "crates/README.md"];
    let mut names = names.map(str::to_string).to_vec();
    for entry in fs::read_dir(root().join("docs")).expect("the folder docs") {
        let name = entry.unwrap().file_name().to_string_lossy().into_owned();
        names.push(format!("docs/{name}"));
    }
    names.retain(|name| name.ends_with(".md"));
    names.sort();
    names.iter().map(|name| Document::read(name)).collect()
}

/// A path from the root, of a target in this document.
fn from_root(document: &str, target: &str) -> String {
    let folder = Path::new(document).parent().expect("a folder");
    let mut path: Vec<String> = Vec::new();
    for part in folder.join(target).components() {
        match part {
            Component::ParentDir => drop(path.pop()),
            Component::Normal(name) => path.push(name.to_string_lossy().into_owned()),
            _ => {}
        }
    }
    path.join("/")
}

/// Every relative link and every definition leads to a file or folder, and an anchor to a heading of it; every link
/// without a target has a definition, and every definition is used.
#[test]
fn links() {
    let documents = documents();
    let anchors: BTreeMap<&str, BTreeSet<String>> = documents
        .iter()
        .map(|document| (document.name(), document.anchors()))
        .collect();
    let mut failures = Vec::new();
    let mut seen = 0;
    for document in &documents {
        let mut targets = Vec::new();
        let mut used = BTreeSet::new();
        for Placed { line, part } in document.parts() {
            match part {
                Part::Link(_, Some(target)) => targets.push((line, target)),
                Part::Link(label, None) => {
                    if !document
                        .definitions
                        .iter()
                        .any(|known| known.label == label)
                    {
                        failures.push(document.at(line, format!("[{label}] has no definition")));
                    }
                    used.insert(label);
                }
                _ => {}
            }
        }
        let mut labels = BTreeSet::new();
        for known in &document.definitions {
            let (line, label) = (known.line, &known.label);
            targets.push((line, known.target.clone()));
            if !used.contains(label) {
                failures.push(document.at(line, format!("[{label}] is defined and not used")));
            }
            if !labels.insert(label) {
                failures.push(document.at(line, format!("[{label}] is defined twice")));
            }
        }
        for (line, target) in targets {
            if target.contains("://") {
                continue;
            }
            seen += 1;
            let (file, anchor) = match target.split_once('#') {
                Some((file, anchor)) => (file, Some(anchor)),
                None => (target.as_str(), None),
            };
            let path = match file {
                "" => document.name().to_string(),
                _ => from_root(document.name(), file),
            };
            if !exists(&path) {
                failures.push(document.at(line, format!("{target} is not there")));
            }
            let headings = anchors.get(path.as_str());
            if anchor.is_some_and(|anchor| !headings.is_some_and(|known| known.contains(anchor))) {
                failures.push(document.at(line, format!("{target} is no heading")));
            }
        }
    }
    assert!(seen > 100, "links were found");
    assert_none(&failures);
}

/// Whether there is such a path; `*` stands for any name.
fn is_there(path: &str) -> bool {
    fn below(folder: &Path, names: &[&str]) -> bool {
        match names {
            [] => folder.exists(),
            ["*", rest @ ..] => fs::read_dir(folder).is_ok_and(|mut entries| {
                entries.any(|entry| below(&entry.expect("an entry").path(), rest))
            }),
            [name, rest @ ..] => below(&folder.join(name), rest),
        }
    }
    let names: Vec<&str> = path.split('/').filter(|name| !name.is_empty()).collect();
    below(&root(), &names)
}

/// What is wrong with a word that looks like a path of the repository, if anything.
fn lost_path(word: &str) -> Option<String> {
    let (first, rest) = word.split_once('/')?;
    let ending = ENDINGS.iter().any(|ending| word.ends_with(ending));
    let lost = if FOLDERS.contains(&first) {
        // files of laws and definitions may be named without their ending
        !is_there(word) && !is_there(&format!("{word}.antt"))
    } else if exists(&format!("crates/{first}"))
        || rest.starts_with("specs/")
        || rest.starts_with("proofs/")
    {
        let path = format!("crates/{word}");
        (rest.starts_with("specs") || rest.starts_with("proofs") || ending)
            && !is_there(&path)
            && !is_there(&format!("{path}.antt"))
    } else {
        // in these documents other files are those of the tests, named from their folder
        ending && !is_there(word) && !is_there(&format!("tests/sealed_book/tests/{word}"))
    };
    lost.then(|| format!("{word} is not there"))
}

/// Words of a text, without what stands around them.
fn words(text: &str) -> impl Iterator<Item = &str> {
    let around = |c: char| !c.is_alphanumeric() && !"_/*-".contains(c);
    text.split_whitespace()
        .map(move |word| word.trim_matches(around).trim_matches('*'))
}

/// TRACE has short forms of its own, and the others say what was.
const PATHS_NOT_HELD: [&str; 3] = ["docs/TRACE.md", "docs/LANDINGS.md", "CHANGELOG.md"];

/// Every path in the other documents is there, between backticks or not.
#[test]
fn paths() {
    let mut failures = Vec::new();
    let mut seen = 0;
    for document in documents() {
        if PATHS_NOT_HELD.contains(&document.name()) {
            continue;
        }
        let parts = document.parts().into_iter();
        let texts = parts.filter_map(|Placed { line, part }| match part {
            Part::Text(text) | Part::Code(text) => Some((line, text)),
            Part::Link(..) => None,
        });
        let fenced = document.fences.iter();
        let fenced = fenced.map(|fence| (fence.line + 1, fence.lines.join("\n")));
        for (first, text) in texts.chain(fenced) {
            for (line, text) in (first..).zip(text.lines()) {
                for word in words(text).filter(|word| word.contains('/')) {
                    seen += 1;
                    failures.extend(lost_path(word).map(|what| document.at(line, what)));
                }
            }
        }
    }
    assert!(seen > 50, "paths were found");
    assert_none(&failures);
}

/// A crate in crates.txt or in a table, and the heading that it stands under.
struct Listed {
    line: usize,
    heading: String,
    name: String,
}

/// The crates of crates.txt. The heading of a group is the comment above it, up to the first colon, comma or full stop.
fn listed_crates(list: &Source) -> Vec<Listed> {
    let mut listed = Vec::new();
    let (mut heading, mut comment) = (String::new(), false);
    for (line, text) in list.lines() {
        let said = text.strip_prefix("# ");
        if let Some(said) = said.filter(|_| !comment) {
            let end = said.find([':', ',', '.']).unwrap_or(said.len());
            heading = said[..end].to_string();
        } else if let Some((name, _)) = text.split_once(':').filter(|_| said.is_none()) {
            // "NAME: .." or, of a static library, "NAME staticlib: .."
            let name = name.split_whitespace().next().unwrap_or_default();
            listed.push(Listed {
                line,
                heading: heading.clone(),
                name: name.to_string(),
            });
        }
        comment = said.is_some();
    }
    listed
}

/// The crate that a row is of, which says something of it: "| `name` | what it has |" or "| [`name`](name) | .. |".
fn crate_of(row: &Row) -> Option<&str> {
    let [cell, what] = &row.cells[..] else {
        return None;
    };
    let name = match cell.strip_prefix('[') {
        Some(link) => {
            let (label, target) = link.strip_suffix(')')?.split_once("](")?;
            code(label).filter(|name| *name == target)
        }
        None => code(cell),
    };
    name.filter(|_| !what.is_empty())
}

/// The rows of the tables of crates, or what is wrong with them.
fn listed_rows(document: &Document) -> Vec<Result<Listed, String>> {
    let mut rows = Vec::new();
    for table in document.tables_in(&WHOLE, &["crate", "what it has"]) {
        let heading = document.heading_above(table.line);
        let heading = heading.map_or("", |heading| heading.text.as_str());
        rows.extend(table.rows.iter().map(|row| {
            let name = crate_of(row)
                .ok_or_else(|| document.at(row.line, "does not say what a crate has"))?;
            Ok(Listed {
                line: row.line,
                heading: heading.to_string(),
                name: name.to_string(),
            })
        }));
    }
    rows
}

/// What is wrong with the tables of crates: each crate of the list has one row, in this order, under the heading of its
/// group.
fn crate_rows(document: &Document, list: &Source) -> Vec<String> {
    let (rows, wrong): (Vec<_>, Vec<_>) =
        listed_rows(document).into_iter().partition(Result::is_ok);
    let rows: Vec<Listed> = rows.into_iter().flatten().collect();
    let mut failures: Vec<String> = wrong.into_iter().filter_map(Result::err).collect();

    let listed = listed_crates(list);
    for known in &listed {
        let same: Vec<_> = rows.iter().filter(|row| row.name == known.name).collect();
        failures.extend(misplaced(document, known, &same));
    }
    for row in &rows {
        if !listed.iter().any(|known| known.name == row.name) {
            failures.push(document.at(row.line, format!("`{}` is no crate", row.name)));
        }
    }
    let mut twos = rows.iter().zip(&listed);
    if let Some((row, known)) = twos.find(|(row, known)| row.name != known.name) {
        let what = format!("`{}` stands where `{}` is due", row.name, known.name);
        failures.push(document.at(row.line, what));
    }
    failures
}

/// What is wrong with the rows that a crate has.
fn misplaced(document: &Document, known: &Listed, rows: &[&Listed]) -> Option<String> {
    let Listed { heading, name, .. } = known;
    match rows {
        [] => Some(document.at(1, format!("`{name}` has no row"))),
        [row] if row.heading == *heading => None,
        [row] => Some(document.at(row.line, format!("`{name}` is not under \"{heading}\""))),
        [_, again, ..] => Some(document.at(again.line, format!("`{name}` has a row already"))),
    }
}

/// The crates that are not in the drawing under "The layers".
fn not_drawn(architecture: &Document, list: &Source) -> Result<Vec<String>, String> {
    let section = architecture.under("## The layers")?;
    let fences = architecture.fences.iter();
    let drawing: BTreeSet<&str> = fences
        .filter(|fence| section.contains(&fence.line))
        .flat_map(|fence| &fence.lines)
        .flat_map(|line| line.split(|c: char| !c.is_alphanumeric() && c != '_'))
        .collect();
    let listed = listed_crates(list).into_iter();
    let failures = listed
        .filter(|known| !drawing.contains(known.name.as_str()))
        .map(|known| architecture.at(section.start, format!("`{}` is not drawn", known.name)));
    Ok(failures.collect())
}

/// The README of the crates has a row for each, and ARCHITECTURE draws each.
#[test]
fn every_crate() {
    let list = Source::read("crates.txt");
    assert!(listed_crates(&list).len() > 40, "crates were found");
    let rows = crate_rows(&Document::read("crates/README.md"), &list);
    let drawing = not_drawn(&Document::read("docs/ARCHITECTURE.md"), &list);
    assert_none(&[rows, all(drawing)].concat());
}

/// No document names a registry, or speaks of how it was made.
#[test]
fn no_strange_words() {
    let mut failures = Vec::new();
    for document in documents() {
        for (line, text) in document.source.lines() {
            let text = text.to_lowercase();
            for word in REGISTRIES.iter().chain(&WORDS) {
                if text.contains(word) {
                    failures.push(document.at(line, format!("names {word}")));
                }
            }
        }
    }
    assert_none(&failures);
}

/// What may stand before the name that a line of antt defines.
const BEFORE_NAMES: [&str; 5] = ["pub", "abbrev", "unfoldable", "record", "data"];

/// Whether the file defines the name: for antt as `name : type` or a record of that name; else behind `fn` and the like.
fn defines(path: &str, name: &str) -> bool {
    let text = read(path);
    if path.ends_with(".antt") {
        return text.lines().any(|line| {
            let words: Vec<&str> = line.split_whitespace().collect();
            let at = words.iter().position(|word| *word == name);
            at.is_some_and(|at| {
                let (before, after) = (&words[..at], words.get(at + 1));
                let kind = before
                    .last()
                    .is_some_and(|word| ["record", "data"].contains(word));
                let modified = before.iter().all(|word| BEFORE_NAMES.contains(word));
                modified && (kind || after == Some(&":"))
            })
        });
    }
    let before = ["fn", "struct", "enum", "const", "type", "static", "trait"];
    text.lines().any(|line| {
        let code = line.split("//").next().unwrap_or_default();
        let words = code.split(|c: char| !c.is_alphanumeric() && c != '_');
        let words: Vec<&str> = words.collect();
        let mut twos = words.windows(2);
        twos.any(|two| before.contains(&two[0]) && two[1] == name)
    })
}

/// Whether this is the folder of a crate.
fn is_crate(folder: &str) -> bool {
    folder
        .strip_prefix("crates/")
        .is_some_and(|name| !name.contains('/'))
}

/// All files below a folder with one of these endings, as paths from the root.
fn files(folder: &str, endings: &[&str]) -> Vec<String> {
    let mut found = Vec::new();
    for entry in fs::read_dir(root().join(folder)).expect(folder) {
        let entry = entry.expect("an entry");
        let path = format!("{folder}/{}", entry.file_name().to_string_lossy());
        if entry.path().is_dir() {
            // what cargo makes, and what rt makes in a crate
            let made = path.ends_with("/target") || path.ends_with("/out") && is_crate(folder);
            if !made {
                found.extend(files(&path, endings));
            }
        } else if endings.iter().any(|ending| path.ends_with(ending)) {
            found.push(path);
        }
    }
    found
}

/// Every word of the sources, for names that are given without a file.
fn all_words() -> &'static BTreeSet<String> {
    static WORDS: OnceLock<BTreeSet<String>> = OnceLock::new();
    WORDS.get_or_init(|| {
        let mut all = BTreeSet::new();
        for folder in ["crates", "rust", "tests", "include"] {
            for path in files(folder, &[".rt", ".antt", ".rs", ".h"]) {
                let text = read(&path);
                let names = text.split(|c: char| !c.is_alphanumeric() && !"_-'".contains(c));
                all.extend(names.map(str::to_string));
            }
        }
        let crates = listed_crates(&Source::read("crates.txt"));
        all.extend(crates.into_iter().map(|known| known.name));
        all
    })
}

/// How a file stands behind names.
#[derive(Clone, Copy, PartialEq)]
enum Behind {
    /// "`a` in FILE", "`a` (FILE": the names before it are defined there.
    Names,
    /// ", FILE": they are defined there, too.
    AnotherFile,
    Nothing,
}

impl Behind {
    /// By the text between the names and the file.
    fn of(text: &str) -> Behind {
        match text.split_whitespace().last() {
            Some("in" | "(in") => Behind::Names,
            Some("(") if text.trim() == "(" => Behind::Names,
            Some(",") if text.trim() == "," => Behind::AnotherFile,
            _ => Behind::Nothing,
        }
    }
}

/// A document, gone over name by name.
struct Names {
    document: Document,
    words: &'static BTreeSet<String>,
    tests: Vec<String>,
    failures: Vec<String>,
    seen: usize,
    /// Names that wait for the file which they are said to be in.
    waiting: Vec<String>,
    /// The names that the last file was for.
    held: Vec<String>,
    /// Whether the names are those of tests.
    testing: bool,
}

impl Names {
    fn of(document: Document) -> Names {
        let folders = ["tests/sealed_book/tests", "tests/reference", "rust/tests"];
        Names {
            document,
            words: all_words(),
            tests: folders.map(|folder| files(folder, &[".rs"])).concat(),
            failures: Vec::new(),
            seen: 0,
            waiting: Vec::new(),
            held: Vec::new(),
            testing: false,
        }
    }

    fn fail(&mut self, line: usize, what: String) {
        self.failures.push(self.document.at(line, what));
    }

    /// The names that wait are defined in this file.
    fn hold(&mut self, line: usize, path: &str) {
        self.held = std::mem::take(&mut self.waiting);
        self.hold_again(line, path);
    }

    /// And in this one, too.
    fn hold_again(&mut self, line: usize, path: &str) {
        for name in self.held.clone() {
            self.seen += 1;
            if root().join(path).is_file() && !defines(path, &name) {
                self.fail(line, format!("`{name}` is not defined in {path}"));
            }
        }
    }

    /// A part of a row ends. Names that still wait have no file: those of tests are functions of some test, others
    /// words of the sources.
    fn end(&mut self, line: usize) {
        let testing = std::mem::take(&mut self.testing);
        for name in std::mem::take(&mut self.waiting) {
            self.seen += 1;
            if testing && !self.tests.iter().any(|path| defines(path, &name)) {
                self.fail(line, format!("`{name}` is no function of a test"));
            } else if !self.words.contains(&name) {
                self.fail(line, format!("`{name}` is nowhere"));
            }
        }
        self.held.clear();
    }

    /// `a::b::f` is in crates/a/src/b.rt, `a::f` in lib.rt.
    fn contract(&mut self, line: usize, name: &str) {
        self.seen += 1;
        let parts: Vec<&str> = name.split("::").collect();
        let (folder, function) = (parts[0], parts[parts.len() - 1]);
        let module = match &parts[1..parts.len() - 1] {
            [] => "lib".to_string(),
            inner => inner.join("/"),
        };
        let path = format!("crates/{folder}/src/{module}.rt");
        if !exists(&path) {
            self.fail(line, format!("`{name}`: {path} is not there"));
        } else if !defines(&path, function) {
            self.fail(line, format!("`{name}` is not in {path}"));
        }
    }

    /// `crate/name` is crates/crate/must-fail/name.edit.
    fn edit(&mut self, line: usize, name: &str) {
        self.seen += 1;
        let (folder, label) = name.split_once('/').expect("a slash");
        let path = format!("crates/{folder}/must-fail/{label}.edit");
        if !exists(&path) {
            self.fail(line, format!("edit `{name}`: {path} is not there"));
        }
    }

    /// The names are defined in this file, as far as it stands behind any.
    fn file(&mut self, line: usize, path: &str, behind: Behind) {
        match behind {
            Behind::Names => self.hold(line, path),
            Behind::AnotherFile => self.hold_again(line, path),
            Behind::Nothing => {}
        }
    }

    /// A file of tests by its short name, behind names that are its functions: "`a`, `b` (`tests/x.rs`, `tests/y.rs`)".
    fn test_file(&mut self, line: usize, name: &str, behind: Behind) {
        self.seen += 1;
        let path = match name.split_once('/') {
            Some(("tests", file)) => format!("tests/sealed_book/tests/{file}"),
            Some(("reference", file)) => format!("tests/reference/src/{file}"),
            Some(("rust", file)) => format!("rust/tests/{file}"),
            _ => name.to_string(),
        };
        if exists(&path) {
            self.file(line, &path, behind);
        } else {
            self.fail(line, format!("`{name}`: {path} is not there"));
        }
    }

    /// A link behind names that are defined there: "`a`, `b` in [file], [file]", "`a` ([file])"; or of a name that is,
    /// "[`a`](file)".
    fn link(&mut self, line: usize, label: &str, target: Option<&str>, behind: Behind) {
        let mut known = self.document.definitions.iter();
        let defined = known.find(|known| known.label == label);
        let Some(target) = target.or(defined.map(|known| known.target.as_str())) else {
            return;
        };
        let path = from_root(self.document.name(), target);
        if !agrees(label, &path) {
            self.fail(line, format!("[{label}] leads to {path}"));
        }
        self.file(line, &path, behind);
        if let Some(name) = code(label).filter(|name| !name.contains(['/', '.', ' '])) {
            self.held = vec![name.to_string()];
            self.hold_again(line, &path);
            self.held.clear();
        }
    }

    /// Text of a row: a semicolon ends a part, and paths that it names are there.
    fn text(&mut self, line: usize, text: &str) {
        if text.contains(';') {
            self.end(line);
        }
        self.testing |= text.ends_with("test ") || text.ends_with("tests ");
        for word in words(text).filter(|word| word.contains('/')) {
            if let Some(what) = lost_path(word) {
                self.fail(line, what);
            } else if text.starts_with(" (") && word.ends_with(".rs") {
                self.hold(line, word);
            }
        }
    }

    /// Goes over a row's answer, where contracts, edits and tests are told by their form; or over a paragraph, of
    /// which only the names before a link are held: those behind the last full stop, semicolon or parenthesis that
    /// opens with a name.
    fn go_over(&mut self, parts: &[Placed], row: bool) {
        let mut before = "";
        for Placed { line, part } in parts {
            let (line, behind) = (*line, Behind::of(before));
            match part {
                Part::Text(text) if row => self.text(line, text),
                Part::Text(text) if text.contains([';', '.']) => self.waiting.clear(),
                Part::Text(_) => {}
                Part::Link(label, target) => self.link(line, label, target.as_deref(), behind),
                Part::Code(code) if code.contains(' ') => {}
                Part::Code(code) if row && code.ends_with(".rs") => {
                    self.test_file(line, code, behind);
                }
                Part::Code(code) if row && code.contains("::") => self.contract(line, code),
                Part::Code(code) if row && code.contains('/') => self.edit(line, code),
                Part::Code(code) => {
                    if !row && before.ends_with('(') {
                        self.waiting.clear();
                    }
                    self.waiting.push(code.clone());
                    self.held.clear();
                }
            }
            before = match part {
                Part::Text(text) => text,
                _ => "",
            };
            if !before.is_empty() && Behind::of(before) != Behind::AnotherFile {
                self.held.clear();
            }
        }
        if !row {
            self.waiting.clear();
        }
        self.end(parts.last().map_or(0, |last| last.line));
    }
}

/// Whether a link to a crate says where it leads: [crate/File] is in specs, [crate/proofs/File] and
/// [crate/src/file.rt] are as they say; so is the path itself, with or without the folder of the crates.
fn agrees(label: &str, path: &str) -> bool {
    let label = code(label).unwrap_or(label);
    let Some((folder, file)) = label.split_once('/') else {
        return true;
    };
    let told = match file.split_once('/') {
        Some(_) => format!("crates/{label}"),
        None => format!("crates/{folder}/specs/{file}"),
    };
    let told = [label.to_string(), format!("{told}.antt"), told];
    !path.starts_with("crates/") || told.iter().any(|told| told == path)
}

/// Every name in TRACE stands where its line says.
#[test]
fn trace() {
    let mut names = Names::of(Document::read("docs/TRACE.md"));
    for Block { line, text, .. } in std::mem::take(&mut names.document.blocks) {
        let row = text.strip_prefix("| ").map(|row| row.trim_end_matches('|'));
        let answer = row.and_then(|row| row.rsplit(" | ").next());
        let parts = parts_of(answer.unwrap_or(&text), line);
        names.go_over(&parts, answer.is_some());
    }
    assert!(names.seen > 500, "names were found");
    assert_none(&names.failures);
}

/// The names in paragraphs, items and rows that stand before a link and are not defined there; and how many do stand so.
fn lost_names(document: Document) -> (Vec<String>, usize) {
    let mut names = Names::of(document);
    for Block { line, text, .. } in std::mem::take(&mut names.document.blocks) {
        names.go_over(&parts_of(&text, line), false);
    }
    (names.failures, names.seen)
}

/// Every name in PROOFS and SECURITY that stands before a link is defined there.
#[test]
fn proofs() {
    for (name, least) in [("docs/PROOFS.md", 20), ("docs/SECURITY.md", 1)] {
        let (failures, seen) = lost_names(Document::read(name));
        assert!(seen >= least, "{name}: names were found");
        assert_none(&failures);
    }
}

/// Lines without the indentation that they share, and without blanks at their ends.
fn unindented<T: AsRef<str>>(lines: &[T]) -> Vec<&str> {
    let lines: Vec<&str> = lines.iter().map(|line| line.as_ref().trim_end()).collect();
    let indented = lines.iter().filter(|line| !line.is_empty());
    let least = indented.map(|line| line.len() - line.trim_start().len());
    let least = least.min().unwrap_or(0);
    lines
        .iter()
        .map(|line| line.get(least..).unwrap_or_default())
        .collect()
}

/// How many lines of a quote stand in the text one behind the other, where most do.
fn quoted(quote: &[&str], text: &str) -> usize {
    let lines: Vec<&str> = text.lines().collect();
    let same = (0..lines.len()).map(|from| {
        let to = lines.len().min(from + quote.len());
        let twos = unindented(&lines[from..to]).into_iter().zip(quote);
        twos.take_while(|(line, quoted)| line == *quoted).count()
    });
    same.max().unwrap_or(0)
}

/// What is wrong with a block that quotes a file, if anything.
fn misquoted(document: &Document, fence: &Fence, text: Option<String>) -> Option<String> {
    let quote = unindented(&fence.lines);
    let Some(text) = text else {
        return Some(document.at(fence.line, format!("\"{}\": no such file", fence.info)));
    };
    if quote.iter().all(|line| line.is_empty()) {
        return Some(document.at(fence.line, "quotes nothing"));
    }
    let same = quoted(&quote, &text);
    (same < quote.len()).then(|| {
        let what = format!("\"{}\" does not go on so in the file", fence.info);
        document.at(fence.line + 1 + same, what)
    })
}

/// What is wrong with the quotes of code and definitions; there is one at least.
fn misquotes(document: &Document, file: impl Fn(&str) -> Option<String>) -> Vec<String> {
    let mut failures = Vec::new();
    let mut seen = 0;
    for fence in &document.fences {
        let (language, path) = fence.info.split_once(' ').unwrap_or((&fence.info, ""));
        if ["rattle", "antt"].contains(&language) {
            seen += 1;
            failures.extend(misquoted(document, fence, file(path)));
        }
    }
    if seen == 0 {
        failures.push(document.at(1, "quotes no file"));
    }
    failures
}

/// Every block of Rattle or antt in PROOFS stands in the file that it names.
#[test]
fn quotes() {
    let file = |path: &str| fs::read_to_string(root().join(path)).ok();
    assert_none(&misquotes(&Document::read("docs/PROOFS.md"), file));
}

/// How many words the README has at most.
const README_WORDS: usize = 900;

/// Whether a document has more words than that, counted as `wc -w` does.
fn too_many_words(document: &Document) -> Option<String> {
    let words = document.source.text.split_whitespace().count();
    let what = format!("{words} words, of {README_WORDS} at most");
    (words > README_WORDS).then(|| document.at(1, what))
}

#[test]
fn length_of_the_readme() {
    let failure = too_many_words(&Document::read("README.md"));
    assert_none(&Vec::from_iter(failure));
}

/// Documents whose lines are held to a length.
const SHORT_LINES: [&str; 8] = [
    "README.md",
    "CHANGELOG.md",
    "crates/README.md",
    "docs/FORMAT.md",
    "docs/PROOFS.md",
    "docs/REFUSALS.md",
    "docs/SECURITY.md",
    "docs/SPEED.md",
];

/// How many characters such a line has at most.
const LINE: usize = 160;

/// Lines that have more, outside tables, fences and definitions of links.
fn long_lines(document: &Document) -> Vec<String> {
    let headings = document.headings.iter().map(|heading| heading.line);
    let blocks = document.blocks.iter();
    let blocks = blocks.filter(|block| block.kind != Kind::Row);
    let blocks = blocks.flat_map(|block| (block.line..).take(block.text.lines().count()));
    let lines: BTreeSet<usize> = headings.chain(blocks).collect();
    let prose = document.source.lines();
    prose
        .map(|(line, text)| (line, text.chars().count()))
        .filter(|(line, len)| lines.contains(line) && *len > LINE)
        .map(|(line, len)| document.at(line, format!("{len} characters, of {LINE} at most")))
        .collect()
}

#[test]
fn lengths_of_lines() {
    let documents = SHORT_LINES.map(Document::read);
    assert_none(&documents.each_ref().map(long_lines).concat());
}

/// The number of a landing, from its heading "7. Title".
fn landing_number(heading: &Heading) -> Option<usize> {
    let (number, title) = heading.text.split_once(". ")?;
    number.parse().ok().filter(|_| !title.trim().is_empty())
}

/// The date that the first line under a heading begins with, and a full stop behind it.
fn date_under<'a>(document: &'a Document, heading: &Heading) -> Option<(usize, &'a str)> {
    let mut below = document.source.lines().skip(heading.line);
    let (line, text) = below.find(|(_, text)| !text.trim().is_empty())?;
    let date = date(text).filter(|date| text[date.len()..].starts_with('.'))?;
    Some((line, date))
}

/// What is wrong with the landings: their numbers fall by one down to 1, each has a date, none is later than the one
/// above it, and a table of crates is the newest one's.
fn wrong_landings(document: &Document) -> Vec<String> {
    let headings = document.headings.iter();
    let landings: Vec<_> = headings.filter(|heading| heading.level == 2).collect();
    let mut failures = Vec::new();
    let mut dates = Vec::new();
    for (due, landing) in (1..=landings.len()).rev().zip(&landings) {
        if landing_number(landing) != Some(due) {
            failures.push(document.at(landing.line, format!("\"{due}. Title\" is due")));
        }
        match date_under(document, landing) {
            Some(found) => dates.push(found),
            None => failures.push(document.at(landing.line, "no date stands under it")),
        }
    }
    failures.extend(rising_dates(&document.source, &dates));

    let newest = landings.first().map(|newest| document.section(newest));
    let newest = newest.unwrap_or_default();
    for table in &document.tables {
        let of_crates = table.header.iter().any(|cell| cell == "crate");
        if of_crates && !newest.contains(&table.line) {
            failures.push(document.at(table.line, "only the newest landing has a table of crates"));
        }
    }
    if landings.is_empty() {
        failures.push(document.at(1, "has no landing"));
    }
    failures
}

#[test]
fn landings() {
    assert_none(&wrong_landings(&Document::read("docs/LANDINGS.md")));
}

/// The comment at the top of a file of Rust, as a document with the file's lines.
fn doc_comment(file: &Source) -> Document {
    let lines = file.text.lines().map_while(|line| line.strip_prefix("//!"));
    let lines: Vec<_> = lines
        .map(|line| line.strip_prefix(' ').unwrap_or(line))
        .collect();
    Document::parse(&Source::new(&file.name, &lines.join("\n")))
}

/// Whether rustdoc hides a line of an example.
fn hidden(line: &str) -> bool {
    line.trim() == "#" || line.trim_start().starts_with("# ")
}

/// What is wrong with the block of Rust in the README: it is the example of the crate, without its hidden lines.
fn wrong_example(readme: &Document, library: &Source) -> Result<(), String> {
    let block = readme.fence("rust")?;
    let comment = doc_comment(library);
    let mut fences = comment.fences.iter();
    let example = fences.find(|fence| ["", "rust"].contains(&fence.info.as_str()));
    let example = example.ok_or_else(|| library.at(1, "has no example"))?;
    let lines = (example.line + 1..).zip(&example.lines);
    let mut shown = lines.filter(|(_, text)| !hidden(text));
    for (line, text) in (block.line + 1..).zip(&block.lines) {
        match shown.next() {
            Some((_, known)) if known == text => {}
            Some((at, known)) => {
                let what = format!("is not line {at} of {}: {known}", library.name);
                return Err(readme.at(line, what));
            }
            None => return Err(readme.at(line, "the example has ended before this")),
        }
    }
    shown.next().map_or(Ok(()), |(at, _)| {
        Err(library.at(at, "this line of the example is not in the README"))
    })
}

/// The README's block of Rust is the example that cargo runs as a test.
#[test]
fn code_in_rust() {
    let library = Source::read("rust/src/lib.rs");
    assert_none(&one(wrong_example(&Document::read("README.md"), &library)));
}

/// A program in C with this body of its main, compiled as `name`, linked with the library, and run.
fn run_in_c(name: &str, body: &str) -> Result<Output, String> {
    let folder = PathBuf::from(env!("CARGO_TARGET_TMPDIR"));
    let (source, program) = (folder.join(format!("{name}.c")), folder.join(name));
    let headers = ["<stdint.h>", "<stdio.h>", "<string.h>", "\"sealed_book.h\""];
    let headers = headers
        .map(|header| format!("#include {header}\n"))
        .concat();
    let text = format!("{headers}\nint main(void) {{\n{body}\nreturn 0;\n}}\n");
    fs::write(&source, text).expect("a file can be written");

    let library = env::var_os("SEALED_BOOK_LIB")
        .map_or_else(|| root().join("target/staticlib"), PathBuf::from);
    let compiled = Command::new(env::var_os("CC").unwrap_or_else(|| "cc".into()))
        .args(["-std=c99", "-Wall", "-Wextra", "-Werror", "-pedantic", "-I"])
        .arg(root().join("include"))
        .arg(&source)
        .arg(library.join("libsealed_book.a"))
        .arg("-o")
        .arg(&program)
        .output()
        .expect("a C compiler runs");
    if !compiled.status.success() {
        return Err(String::from_utf8_lossy(&compiled.stderr).into_owned());
    }
    Ok(Command::new(&program).output().expect("the program runs"))
}

/// What comments say that a program prints: "/* prints: TEXT */".
fn said_to_print(body: &str) -> Vec<&str> {
    let comments = body.split("/* prints:").skip(1);
    let comments = comments.map(|comment| comment.split("*/").next().unwrap_or_default());
    comments
        .flat_map(|comment| comment.trim().lines().map(str::trim))
        .collect()
}

/// What is wrong with the block of C in the README: it compiles as the body of a main, runs to its end, and prints what
/// its comments say, if they do.
fn wrong_program(readme: &Document) -> Result<(), String> {
    let block = readme.fence("c")?;
    let lines = block.lines.join("\n");
    // so that the compiler tells the lines of the README
    let body = format!("#line {} \"{}\"\n{lines}", block.line + 1, readme.name());
    let fail = |what: String| readme.at(block.line, what);
    let output = run_in_c(&readme.name().replace(['/', '.'], "_"), &body)
        .map_err(|told| fail(format!("does not compile\n{told}")))?;
    if !output.status.success() {
        let told = String::from_utf8_lossy(&output.stderr);
        return Err(fail(format!("ends with {}\n{told}", output.status)));
    }
    let printed = String::from_utf8_lossy(&output.stdout);
    let printed: Vec<&str> = printed.lines().map(str::trim).collect();
    let said = said_to_print(&lines);
    if !said.is_empty() && said != printed {
        return Err(fail(format!("says {said:?} and prints {printed:?}")));
    }
    Ok(())
}

#[test]
fn code_in_c() {
    assert_none(&one(wrong_program(&Document::read("README.md"))));
}
