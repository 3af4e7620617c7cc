//! Figures in the documents against where they come from: versions, stack, refusals and their orders, quotients, limits, and
//! the receipt that is shown. Each test prints all places that fail, with file and line.

mod common;

use std::collections::BTreeSet;
use std::ops::Range;

use common::document::{
    all, assert_none, behind_marker, code, date, one, parts_of, rising_dates, Document, Heading,
    Kind, Part, Placed, Row, Source, Table,
};
use sealed_book::{raw, Refusal};

/// A figure, and where it stands.
struct Figure {
    source: Source,
    line: usize,
    text: String,
}

impl Figure {
    /// What stands behind `before`, which begins a line, the first time from a line on: digits and full stops.
    fn find(source: &Source, from: usize, before: &str) -> Result<Figure, String> {
        let mut lines = source.lines().skip(from - 1);
        let found = lines.find_map(|(line, text)| Some((line, text.strip_prefix(before)?)));
        let (line, text) = found.ok_or_else(|| source.at(from, format!("has no line {before}")))?;
        let end = text.find(|c: char| !c.is_ascii_digit() && c != '.');
        Ok(Figure {
            source: source.clone(),
            line,
            text: text[..end.unwrap_or(text.len())].to_string(),
        })
    }

    /// It is the one that is due.
    fn is(&self, due: &str) -> Result<(), String> {
        if self.text == due {
            return Ok(());
        }
        let what = format!("has {} where {due} is due", self.text);
        Err(self.source.at(self.line, what))
    }
}

/// The numbers of a version "0.2.1".
fn version(text: &str) -> Option<[u32; 3]> {
    let numbers: Result<Vec<u32>, _> = text.split('.').map(str::parse).collect();
    numbers.ok()?.try_into().ok()
}

/// The files that say the version.
#[derive(Clone)]
struct Versions {
    header: Source,
    package: Source,
    lock: Source,
    changelog: Source,
    example: Source,
}

impl Versions {
    fn read() -> Versions {
        let [header, package, lock, changelog, example] = [
            "include/sealed_book.h",
            "rust/Cargo.toml",
            "tests/Cargo.lock",
            "CHANGELOG.md",
            "examples/book.c",
        ]
        .map(Source::read);
        Versions {
            header,
            package,
            lock,
            changelog,
            example,
        }
    }

    /// What does not agree with the crate's version, 0.N.P: the header and the example have N, the others all of it.
    fn failures(&self) -> Result<Vec<String>, String> {
        let package = Figure::find(&self.package, 1, "version = \"")?;
        let Some([0, header, _]) = version(&package.text) else {
            let what = format!("\"{}\" is no version 0.N.P", package.text);
            return Err(self.package.at(package.line, what));
        };
        let (whole, header) = (package.text, header.to_string());
        let found = [
            (
                Figure::find(&self.header, 1, "#define SB_VERSION "),
                &header,
            ),
            (
                Figure::find(&self.example, 1, "#if SB_VERSION != "),
                &header,
            ),
            (self.locked(), &whole),
            (self.newest(), &whole),
        ];
        let found = found.map(|(figure, due)| one(figure.and_then(|figure| figure.is(due))));
        let changes = wrong_changes(&Document::parse(&self.changelog));
        Ok([found.concat(), changes].concat())
    }

    /// The crate's version in the lock file.
    fn locked(&self) -> Result<Figure, String> {
        let name = Figure::find(&self.lock, 1, "name = \"sealed_book\"")?;
        Figure::find(&self.lock, name.line, "version = \"")
    }

    /// The version of the first heading in the changelog.
    fn newest(&self) -> Result<Figure, String> {
        Figure::find(&self.changelog, 1, "## ")
    }
}

/// What is wrong with the headings of a changelog, "0.2.1, 2026-11-16": versions fall, and no date is after the one above.
fn wrong_changes(changelog: &Document) -> Vec<String> {
    let mut failures = Vec::new();
    let mut known = Vec::new();
    for heading in changelog.headings.iter().filter(|h| h.level == 2) {
        let two = heading.text.split_once(", ");
        let two = two.and_then(|(v, day)| Some((version(v)?, date(day).filter(|d| *d == day)?)));
        match two {
            Some((version, day)) => known.push((heading, version, day)),
            None => failures.push(changelog.at(heading.line, "is no version and date")),
        }
    }
    for two in known.windows(2).filter(|two| two[0].1 <= two[1].1) {
        let (above, heading) = (two[0].0, two[1].0);
        let what = format!("is not before \"{}\" above it", above.text);
        failures.push(changelog.at(heading.line, what));
    }
    let dates: Vec<_> = known
        .iter()
        .map(|(heading, _, day)| (heading.line, *day))
        .collect();
    failures.extend(rising_dates(&changelog.source, &dates));
    failures
}

#[test]
fn versions() {
    assert_none(&all(Versions::read().failures()));
}

/// A function that the header declares, and the comment above it.
struct Function {
    line: usize,
    name: String,
    comment: String,
}

/// The name of the function that a line of the header declares.
fn declared(line: &str) -> Option<&str> {
    let (before, _) = line.split_once('(')?;
    let (result, name) = before.rsplit_once([' ', '*'])?;
    let plain = result.starts_with(char::is_alphabetic) && !result.starts_with("static ");
    Some(name).filter(|name| plain && name.starts_with("sb_"))
}

fn functions(header: &Source) -> Vec<Function> {
    let mut functions = Vec::new();
    let (mut comment, mut inside) = (String::new(), false);
    for (line, text) in header.lines() {
        if text.starts_with("/*") {
            comment.clear();
            inside = true;
        }
        if inside {
            comment += text.trim_start_matches(['/', '*', ' ']);
            comment += " ";
            inside = !text.contains("*/");
        } else if let Some(name) = declared(text) {
            let (name, comment) = (name.to_string(), comment.clone());
            functions.push(Function {
                line,
                name,
                comment,
            });
        }
    }
    functions
}

/// A row of a table of stack: how much, and the calls that take it.
#[derive(PartialEq)]
struct Stack {
    figure: String,
    calls: Vec<String>,
}

impl Stack {
    fn new(figure: &str, calls: &str) -> Stack {
        Stack {
            figure: figure.to_string(),
            calls: calls.split(", ").map(str::to_string).collect(),
        }
    }

    fn told(&self) -> String {
        format!("{}: {}", self.figure, self.calls.join(", "))
    }
}

/// The header's rows, as " *    8 KB  sb_seal, sb_check".
fn header_stack(header: &Source) -> Vec<Stack> {
    let rows = header.lines().filter_map(|(_, text)| {
        let text = text.strip_prefix(" *")?.trim_start();
        let (kilobytes, calls) = text.split_once(" KB  ")?;
        let row = Stack::new(&format!("{kilobytes} KB"), calls);
        calls.starts_with("sb_").then_some(row)
    });
    rows.collect()
}

/// What is wrong with the table "| stack | calls |": its rows are the header's, and have every function.
fn wrong_stack(document: &Document, header: &Source) -> Result<Vec<String>, String> {
    let table = document.table(&["stack", "calls"])?;
    let known = header_stack(header);
    let mut failures = Vec::new();
    let mut calls = BTreeSet::new();
    for (i, row) in table.rows.iter().enumerate() {
        let cells: Vec<String> = row.cells.iter().map(|cell| cell.replace('`', "")).collect();
        let told = match &cells[..] {
            [figure, calls] => Stack::new(figure, calls),
            _ => Stack::new("", ""),
        };
        if known.get(i) != Some(&told) {
            let due = known
                .get(i)
                .map_or_else(|| "nothing".to_string(), Stack::told);
            failures.push(document.at(row.line, format!("the header has here {due}")));
        }
        calls.extend(told.calls);
    }
    for missing in known.iter().skip(table.rows.len()) {
        failures.push(document.at(table.line, format!("has no row of {}", missing.told())));
    }
    for function in functions(header) {
        if !calls.contains(&function.name) {
            let what = format!(
                "`{}` is not in the table of {}",
                function.name,
                document.name()
            );
            failures.push(header.at(function.line, what));
        }
    }
    Ok(failures)
}

#[test]
fn stack() {
    let header = Source::read("include/sealed_book.h");
    let document = Document::read("docs/SECURITY.md");
    assert_none(&all(wrong_stack(&document, &header)));
}

/// A refusal in the header: its name and number.
struct Named {
    line: usize,
    name: String,
    number: u32,
}

/// The refusals of the header, "#define SB_KEY_LENGTH 2" and so on behind "/* Refusals. */".
fn refusals_named(header: &Source) -> Vec<Named> {
    let lines = header.lines();
    let lines = lines.skip_while(|(_, text)| *text != "/* Refusals. */");
    let lines = lines.take_while(|(_, text)| !text.is_empty());
    let named = lines.filter_map(|(line, text)| {
        let mut words = text.strip_prefix("#define ")?.split_whitespace();
        Some(Named {
            line,
            name: words.next()?.to_string(),
            number: words.next()?.parse().ok()?,
        })
    });
    named.collect()
}

/// Numbers of one or two digits in a text.
fn short_numbers(text: &str) -> Vec<u32> {
    let words = text.split(|c: char| !c.is_alphanumeric() && c != '_');
    let words = words.filter(|word| word.len() <= 2);
    words.filter_map(|word| word.parse().ok()).collect()
}

/// What a comment says of refusals, "Refusals, the first that applies: 1, 2, 7; then buf is as it was.", up to the full stop and
/// without what is then as it was.
fn refusal_sentence(comment: &str) -> Option<&str> {
    let (_, behind) = comment.rsplit_once("Refusal")?;
    let (_, sentence) = behind.split_once(": ")?;
    sentence.split('.').next()?.split("; then ").next()
}

/// A function's refusals in their order, as its comment says. "those of sb_fetch without the units before k" are the same
/// numbers: the sentence of sb_fetch names those of a unit once. Behind "those of sb_check in their order, then 7" one more comes.
fn order(function: &Function, functions: &[Function]) -> Option<Vec<u32>> {
    let sentence = refusal_sentence(&function.comment)?;
    let Some(other) = sentence.strip_prefix("those of ") else {
        return Some(short_numbers(sentence));
    };
    let (name, behind) = other.split_once(' ').unwrap_or((other, ""));
    let mut functions = functions.iter();
    let other = functions.find(|known| known.name == name)?;
    let numbers = short_numbers(refusal_sentence(&other.comment)?);
    Some([numbers, short_numbers(behind)].concat())
}

/// A heading of calls in a document, and the numbers in the list under it.
struct Told<'a> {
    heading: &'a Heading,
    calls: Vec<String>,
    numbers: Vec<u32>,
}

/// The number in bold that an item of a list begins with.
fn item_number(text: &str) -> Option<u32> {
    let (number, _) = behind_marker(text)?.strip_prefix("**")?.split_once("**")?;
    number.parse().ok()
}

/// The numbers of the lists in a section, read from above downwards.
fn listed_numbers(document: &Document, section: &Range<usize>) -> Vec<u32> {
    let blocks = document.blocks.iter();
    let items = blocks.filter(|block| block.kind == Kind::Item && section.contains(&block.line));
    items.filter_map(|item| item_number(&item.text)).collect()
}

/// The orders under "## Orders", each under a heading as "### `sb_encipher`, `sb_decipher`".
fn told_orders(document: &Document) -> Result<Vec<Told<'_>>, String> {
    let section = document.under("## Orders")?;
    let headings = document.headings.iter();
    let headings = headings.filter(|h| h.level == 3 && section.contains(&h.line));
    let told = headings.map(|heading| Told {
        heading,
        calls: codes(&heading.text),
        numbers: listed_numbers(document, &document.section(heading)),
    });
    Ok(told.collect())
}

/// What stands between backticks in a text.
fn codes(text: &str) -> Vec<String> {
    let parts = parts_of(text, 1).into_iter();
    parts
        .filter_map(|Placed { part, .. }| match part {
            Part::Code(code) => Some(code),
            _ => None,
        })
        .collect()
}

/// What is wrong with the orders: each function that can refuse has one, which is the header's, and no other has.
fn wrong_orders(document: &Document, told: &[Told<'_>], functions: &[Function]) -> Vec<String> {
    let mut failures = Vec::new();
    for function in functions {
        let Some(due) = order(function, functions) else {
            continue;
        };
        let name = &function.name;
        let mut orders = told.iter().filter(|told| told.calls.contains(name));
        match (orders.next(), orders.next()) {
            (Some(told), None) if told.numbers == due => {}
            (Some(told), None) => {
                let what = format!("{:?}, in the header {due:?}", told.numbers);
                failures.push(document.at(told.heading.line, format!("`{name}` has {what}")));
            }
            (None, _) => failures.push(document.at(1, format!("`{name}` has no order"))),
            (_, Some(again)) => {
                let what = format!("`{name}` has an order already");
                failures.push(document.at(again.heading.line, what));
            }
        }
    }
    for told in told {
        let refuses = |name: &String| {
            let mut same = functions.iter().filter(|function| function.name == *name);
            same.any(|function| order(function, functions).is_some())
        };
        for name in told.calls.iter().filter(|name| !refuses(name)) {
            let what = format!("`{name}` is no function that refuses");
            failures.push(document.at(told.heading.line, what));
        }
    }
    failures
}

/// The columns of the table of refusals that are calls: `seal` is sb_seal, and so on.
const CALLS: [&str; 8] = [
    "seal", "open", "start", "add", "close", "check", "fetch", "page",
];

/// What is wrong with a row of the table of refusals, with the refusal of the header that is due there.
fn wrong_row(row: &Row, due: Option<&Named>, orders: &[Vec<u32>]) -> Vec<String> {
    let Some(due) = due else {
        return vec!["is no refusal of the header".to_string()];
    };
    let [number, name, cause, marks @ ..] = &row.cells[..] else {
        return vec!["has too few cells".to_string()];
    };
    let mut wrong = Vec::new();
    if (number, code(name)) != (&due.number.to_string(), Some(due.name.as_str())) {
        wrong.push(format!("{} `{}` is due", due.number, due.name));
    }
    if cause.is_empty() {
        wrong.push("says no cause".to_string());
    }
    let mut marks = marks.iter().map(String::as_str);
    for (call, order) in CALLS.iter().zip(orders) {
        let mark = if order.contains(&due.number) { "x" } else { "" };
        if marks.next() != Some(mark) {
            wrong.push(format!("by its order `{call}` has \"{mark}\" here"));
        }
    }
    wrong
}

/// What is wrong with the table of refusals, held to the header's names and to the orders.
fn wrong_table(
    document: &Document,
    header: &Source,
    told: &[Told<'_>],
) -> Result<Vec<String>, String> {
    let columns = [&["number", "name in C", "cause"], &CALLS[..]].concat();
    let table = document.table(&columns)?;
    let named = refusals_named(header);
    let orders = CALLS.map(|call| {
        let name = format!("sb_{call}");
        let order = told.iter().find(|told| told.calls.contains(&name));
        order.map_or_else(Vec::new, |told| told.numbers.clone())
    });
    let mut failures = Vec::new();
    for (i, row) in table.rows.iter().enumerate() {
        let wrong = wrong_row(row, named.get(i), &orders).into_iter();
        failures.extend(wrong.map(|what| document.at(row.line, what)));
    }
    for missing in named.iter().skip(table.rows.len()) {
        failures.push(document.at(table.line, format!("`{}` has no row", missing.name)));
    }
    for (due, named) in (1..)
        .zip(&named)
        .filter(|(due, named)| named.number != *due)
    {
        let what = format!("`{}` has not the number {due}", named.name);
        failures.push(header.at(named.line, what));
    }
    Ok(failures)
}

/// What is wrong with the refusals in a document: the table, and the orders.
fn wrong_refusals(document: &Document, header: &Source) -> Result<Vec<String>, String> {
    let told = told_orders(document)?;
    let table = all(wrong_table(document, header, &told));
    Ok([table, wrong_orders(document, &told, &functions(header))].concat())
}

#[test]
fn refusals() {
    let header = Source::read("include/sealed_book.h");
    assert_eq!(refusals_named(&header).len(), 16, "refusals were found");
    let document = Document::read("docs/REFUSALS.md");
    assert_none(&all(wrong_refusals(&document, &header)));
}

/// The names of the refusals in Rust.
#[test]
fn refusals_in_rust() {
    let document = Document::read("docs/REFUSALS.md");
    let header = ["number", "in Rust", "what it is likely to be"];
    let table = document.table(&header).expect("the table");
    for (number, row) in (1..).zip(&table.rows) {
        let refusal = Refusal::from_number(number).expect("a refusal");
        let due = [number.to_string(), format!("`{refusal:?}`")];
        assert_eq!(row.cells[..2], due, "{}", document.at(row.line, "differs"));
    }
    let next = table.rows.len() as u32 + 1;
    assert_eq!(Refusal::from_number(next), None, "refusal {next}");
}

/// The functions that return the number of a refusal and do not say which, or say so and return none. One that returns another
/// number says "Nothing is refused."
fn unsaid_refusals(header: &Source) -> Vec<String> {
    let functions = functions(header);
    let mut failures = Vec::new();
    for function in &functions {
        let line = header.text.lines().nth(function.line - 1);
        let number = line.is_some_and(|line| line.starts_with("uint32_t "));
        let returned = number && !function.comment.contains("Nothing is refused.");
        let said = order(function, &functions).is_some_and(|order| !order.is_empty());
        let what = match (returned, said) {
            (true, false) => "returns refusals, and its comment names none",
            (false, true) => "returns no refusal, and its comment names some",
            _ => continue,
        };
        failures.push(header.at(function.line, format!("`{}` {what}", function.name)));
    }
    failures
}

#[test]
fn refusals_in_the_header() {
    let header = Source::read("include/sealed_book.h");
    assert!(functions(&header).len() > 15, "functions were found");
    assert_none(&unsaid_refusals(&header));
}

/// A number in a table, in bold or not, with how many decimal places it shows: "3,778", "0.040".
fn decimal(cell: &str) -> Option<(f64, usize)> {
    let digits = cell.trim_matches('*').replace(',', "");
    let plain = digits
        .bytes()
        .all(|byte| byte.is_ascii_digit() || byte == b'.');
    let places = digits.split_once('.').map_or(0, |(_, behind)| behind.len());
    let value = digits.parse().ok().filter(|_| plain)?;
    Some((value, places))
}

/// The column of this name, or else the only one that begins so, quotients apart.
fn column(header: &[String], name: &str) -> Option<usize> {
    let exact = header.iter().position(|cell| cell == name);
    let begins = |i: &usize| header[*i].starts_with(name) && !header[*i].contains(" / ");
    let mut beginning = (0..header.len()).filter(begins);
    exact.or(match (beginning.next(), beginning.next()) {
        (Some(only), None) => Some(only),
        _ => None,
    })
}

/// A column "A / B", and those of A and B.
struct Quotient {
    column: usize,
    above: usize,
    below: usize,
}

/// The quotients of a table. Where only one of A and B is a column, something is wrong; where none is, it is no
/// quotient of columns.
fn quotients(table: &Table) -> Result<Vec<Quotient>, String> {
    let mut quotients = Vec::new();
    for (i, cell) in table.header.iter().enumerate() {
        let Some((a, b)) = cell.split_once(" / ") else {
            continue;
        };
        match [a, b].map(|name| column(&table.header, name)) {
            [Some(above), Some(below)] => quotients.push(Quotient {
                column: i,
                above,
                below,
            }),
            [None, None] => {}
            [above, _] => {
                let lost = if above.is_none() { a } else { b };
                return Err(format!(
                    "\"{cell}\": no column, or not one alone, begins with \"{lost}\""
                ));
            }
        }
    }
    Ok(quotients)
}

/// A cell of a row, which is empty where the row is too short.
fn cell(row: &Row, column: usize) -> &str {
    row.cells.get(column).map_or("", String::as_str)
}

/// What is wrong with a quotient in a row, if anything; a last digit off by one is not, as all three were rounded.
fn wrong_quotient(row: &Row, quotient: &Quotient) -> Option<String> {
    let columns = [quotient.column, quotient.above, quotient.below];
    let [shown, a, b] = columns.map(|column| cell(row, column));
    let [Some((value, places)), Some((a, _)), Some((b, _))] = [shown, a, b].map(decimal) else {
        return Some(format!(
            "{shown} is not a quotient of numbers: \"{a}\" and \"{b}\""
        ));
    };
    let scale = 10f64.powi(places as i32);
    let off = (value * scale).round() - (a / b * scale).round();
    let wrong = off.abs() > 1.0 || b == 0.0;
    wrong.then(|| format!("{shown} is not {a} / {b}, which is {:.places$}", a / b))
}

/// What is wrong with the quotients in all tables; there is one at least.
fn wrong_quotients(document: &Document) -> Vec<String> {
    let mut failures = Vec::new();
    let mut seen = 0;
    for table in &document.tables {
        let quotients = quotients(table).unwrap_or_else(|what| {
            failures.push(document.at(table.line, what));
            Vec::new()
        });
        for row in &table.rows {
            for quotient in &quotients {
                if !cell(row, quotient.column).is_empty() {
                    seen += 1;
                    let wrong = wrong_quotient(row, quotient);
                    failures.extend(wrong.map(|what| document.at(row.line, what)));
                }
            }
        }
    }
    if seen == 0 {
        failures.push(document.at(1, "has no quotient"));
    }
    failures
}

#[test]
fn speed() {
    assert_none(&wrong_quotients(&Document::read("docs/SPEED.md")));
}

/// A number with commas, as documents have it.
fn grouped(number: usize) -> String {
    let digits = number.to_string();
    let mut text = String::new();
    for (i, digit) in digits.chars().enumerate() {
        if i > 0 && (digits.len() - i) % 3 == 0 {
            text.push(',');
        }
        text.push(digit);
    }
    text
}

/// The limits that the README states are those of the header, and of the program for the shell.
#[test]
fn limits() {
    let readme = Source::read("README.md");
    let words: Vec<&str> = readme.text.split_whitespace().collect();
    let text = words.join(" ");
    let segment = grouped(raw::SEGMENT_MAX);
    let longest = "longest_book = ";
    let line = Source::read("crates/check_book/specs/Line.antt");
    let book = line.text.split_once(longest).expect(longest).1;
    let book: String = book.chars().take_while(char::is_ascii_digit).collect();
    let due = [
        format!(
            "A source has 1 to {segment} bytes, about {} Chinese",
            grouped(raw::SEGMENT_MAX / 3)
        ),
        format!("; a target 0 to {segment}."),
        format!(
            "codes of {} letters",
            ["no", "one", "two", "three"][raw::CODE_LEN]
        ),
        format!("at most {} units", grouped(raw::UNITS_MAX as usize)),
        format!(
            "It takes {} bytes, and {} for each unit",
            raw::book_room(0, 0),
            raw::unit_room(0, 0)
        ),
        format!("up to {} bytes", grouped(book.parse().expect("a number"))),
    ];
    let failures = due.iter().filter(|due| !text.contains(*due));
    let failures = failures.map(|due| readme.at(1, format!("does not say \"{due}\"")));
    assert_none(&failures.collect::<Vec<_>>());
}

/// The lines of a file that begin so, without blanks before.
fn lines_with<'a>(source: &'a Source, before: &str) -> Vec<(usize, &'a str)> {
    let lines = source.lines();
    lines
        .filter(|(_, text)| text.trim_start().starts_with(before))
        .collect()
}

/// The limit of units, wherever refusals 9 and 13 are told: in the table and the orders, in the header's text, and in the
/// crate for Rust.
#[test]
fn limit_of_units() {
    let document = Source::read("docs/REFUSALS.md");
    let header = Source::read("include/sealed_book.h");
    let refusal = Source::read("rust/src/refusal.rs");
    let limit = grouped(raw::UNITS_MAX as usize);
    let mut failures = Vec::new();
    for (source, before, times) in [
        (&document, "| 9 | `SB_WRITER_INVALID`", 1),
        (&document, "| 13 | `SB_TOO_MANY_UNITS`", 1),
        (&document, "2. **13** the number that was asked for is", 2),
        (&document, "- **13** has one limit", 1),
        (&header, "16,777,215 or a call total", 1),
        (&header, "#define SB_TOO_MANY_UNITS", 1),
        (&header, "case SB_TOO_MANY_UNITS", 1),
        (&refusal, "/// The writer has an unlisted suite", 1),
        (&refusal, "TooManyUnits =>", 1),
    ] {
        let lines = lines_with(source, before);
        if lines.len() != times {
            let what = format!("{} lines begin with \"{before}\", of {times}", lines.len());
            failures.push(source.at(1, what));
        }
        let wrong = lines.iter().filter(|(_, text)| !text.contains(&limit));
        failures.extend(wrong.map(|(line, _)| source.at(*line, format!("does not say {limit}"))));
    }
    assert_none(&failures);
}

/// The receipt of known value 8, wherever it is shown, is that of the book as it is written: "here (88 bytes, 7 calls)".
#[test]
fn receipt_shown() {
    assert_eq!(raw::book_room(1, 5 + 6), 88);
    let mut failures = Vec::new();
    for (name, due) in [
        ("README.md", "the whole receipt, here 88, 1, 7:"),
        ("README.md", "-eq 88 && cat"),
        ("docs/SECURITY.md", "-eq 88 && cat"),
        ("include/sealed_book.h", "\"bytes=88 units=1 calls=7\""),
        ("rust/src/receipt.rs", "`bytes=88 units=1 calls=7`"),
        (
            "rust/src/receipt.rs",
            "assert_eq!(mail, \"bytes=88 units=1 calls=7\")",
        ),
    ] {
        let source = Source::read(name);
        if !source.text.contains(due) {
            failures.push(source.at(1, format!("does not say {due}")));
        }
        let others = ["-eq ", "bytes="].map(|before| other_numbers(&source, before, "88"));
        failures.extend(others.concat());
    }
    assert_none(&failures);
}

/// Where another number stands behind these words than the one that is due.
fn other_numbers(source: &Source, before: &str, due: &str) -> Vec<String> {
    let mut failures = Vec::new();
    for (line, text) in source.lines() {
        for behind in text.split(before).skip(1) {
            let digits: String = behind.chars().take_while(char::is_ascii_digit).collect();
            if !digits.is_empty() && digits != due && behind.contains("units=1") {
                failures.push(source.at(line, format!("has {before}{digits}")));
            }
        }
    }
    failures
}
