//! The page on the file format, docs/FORMAT.md, against the second implementation, the library and the vectors: the
//! worked examples, the layout of each kind, the tables of the ciphers, and the longer seal. Each test prints all places
//! that fail, with file and line.

mod common;

use std::collections::BTreeSet;
use std::ops::Range;

use common::document::{all, assert_none, code, Document, Part, Placed, Table};
use reference::book::{places, Book, Kind};
use reference::boxes::{self, times};
use reference::cipher::{encipher, SUITES};
use reference::sealing::{assembled, calls, tweak, Place};
use reference::state::Block;
use reference::tables::Matrix;
use reference::vectors::{cipher_vectors, seal_vectors, SealVector};
use reference::writer::start;
use sealed_book::raw;

const PAGE: &str = "docs/FORMAT.md";

/// Bytes as they are shown: "01 0A".
fn spaced(bytes: &[u8]) -> String {
    let bytes = bytes.iter().map(|byte| format!("{byte:02X}"));
    bytes.collect::<Vec<_>>().join(" ")
}

/// The bytes of hexadecimal digits, with blanks or without.
fn unhex(text: &str) -> Option<Vec<u8>> {
    let digits: String = text.split_whitespace().collect();
    let digit = |i: usize| digits.get(i..i + 2).filter(|two| !two.contains('+'));
    let bytes = (0..digits.len()).step_by(2);
    bytes
        .map(|i| u8::from_str_radix(digit(i)?, 16).ok())
        .collect()
}

/// The bytes of a cell, in backticks; an empty cell has none.
fn cell_bytes(cell: &str) -> Option<Vec<u8>> {
    match cell {
        "" => Some(Vec::new()),
        _ => code(cell).and_then(unhex),
    }
}

/// A sealing in a book: what goes into it, and where its ciphertext and its tag stand.
struct Sealing {
    nonce: Vec<u8>,
    header: Vec<u8>,
    text: Vec<u8>,
    ciphertext: usize,
    tag: usize,
}

/// A book as the second implementation writes it, and the unit count and call total that are stated of it.
struct Example {
    suite: (u8, u8),
    bytes: Vec<u8>,
    sealings: Vec<Sealing>,
    units: u64,
    calls: u64,
}

/// The bytes that the second implementation's writer of the book's kind leaves.
fn written(book: &Book, len: usize) -> Vec<u8> {
    let mut buffer = vec![0; len];
    let (mut writer, mut answer) =
        start(book.cipher, book.steps, &book.key, book.number, &mut buffer);
    for unit in &book.units {
        assert_eq!(answer, Ok(()));
        let (from, to) = (unit.from, unit.to);
        (writer, answer) =
            writer.add_of(book.kind, &mut buffer, from, to, &unit.source, &unit.target);
    }
    assert_eq!(answer, Ok(()));
    (writer, answer) = writer.close_of(book.kind, &mut buffer);
    assert_eq!((answer, writer.place), (Ok(()), len as u64));
    buffer
}

/// The sealings of a book. "The nonce is the book number and the unit number in 4 bytes (the count, at the close). The
/// header sealed along is fields 01, 02 and 10 (25 bytes) or 20 (21 bytes)", or the fields of another kind.
fn sealings(book: &Book, bytes: &[u8]) -> Vec<Sealing> {
    let sealing = |(number, at): (usize, usize)| {
        let unit = book.units.get(number);
        // tag and length, the number, and of a unit two codes
        let field = 3 + book.kind.number_bytes() + unit.map_or(0, |_| 4);
        let text = unit.map_or_else(Vec::new, |unit| unit.text());
        // in front of the tag, and of a ciphertext, stand a field's tag and length
        let ciphertext = at + unit.map_or(field, |_| book.kind.ciphertext_at());
        Sealing {
            nonce: [
                &book.number.to_be_bytes()[..],
                &(number as u32).to_be_bytes(),
            ]
            .concat(),
            header: [&bytes[..16], &bytes[at..at + field]].concat(),
            tag: ciphertext + text.len() + 3,
            ciphertext,
            text,
        }
    };
    places(book).into_iter().enumerate().map(sealing).collect()
}

/// Known value 8: "Book 7, Scream 10 steps, .. with s 5, t 6 and a close it has 84 bytes, 7 calls", as it is printed, of
/// kind 10; "case 8 follow the fields that the writer makes, here (88 bytes, 7 calls)".
fn known_value_8(kind: Kind, key: Block) -> Example {
    let book = Book::known(kind, key);
    let len = match kind {
        Kind::Tag10 => 84,
        Kind::Tag14 => 88,
    };
    let bytes = written(&book, len);
    Example {
        suite: (book.cipher, book.steps),
        sealings: sealings(&book, &bytes),
        bytes,
        units: 1,
        calls: 7,
    }
}

/// A section of a document that shows an example.
struct Shown<'a> {
    document: &'a Document,
    key: Block,
    book: &'a Table,
    calls: &'a Table,
    /// The parts of each sealing, as far as they are shown.
    parts: Vec<&'a Table>,
}

/// The first code in a section that is 32 hexadecimal digits.
fn shown_key(document: &Document, section: &Range<usize>) -> Result<Block, String> {
    let parts = document.parts().into_iter();
    let mut codes = parts.filter_map(|Placed { line, part }| match part {
        Part::Code(code) if section.contains(&line) && !code.contains(' ') => Some(code),
        _ => None,
    });
    let key = codes.find_map(|code| Block::try_from(unhex(&code)?).ok());
    key.ok_or_else(|| document.at(section.start, "shows no key of 32 hexadecimal digits"))
}

impl<'a> Shown<'a> {
    /// What the section under this heading shows.
    fn under(document: &'a Document, heading: &str) -> Result<Shown<'a>, String> {
        let section = document.under(heading)?;
        Ok(Shown {
            document,
            key: shown_key(document, &section)?,
            book: document.table_in(&section, &["at", "bytes", "what it is"])?,
            calls: document.table_in(&section, &["call", "tweak", "block", "becomes"])?,
            parts: document.tables_in(&section, &["part", "bytes"]),
        })
    }

    /// What is wrong with the rows of the book: each stands at its place, and has the example's bytes there.
    fn wrong_book(&self, example: &Example) -> Vec<String> {
        let mut failures = Vec::new();
        let mut bytes = Vec::new();
        for row in &self.book.rows {
            let at = bytes.len();
            let [place, shown, what] = &row.cells[..] else {
                failures.push(self.document.at(row.line, "has not three cells"));
                continue;
            };
            let shown = cell_bytes(shown).unwrap_or_default();
            bytes.extend(&shown);
            let due = &example.bytes[at.min(example.bytes.len())..];
            if *place != at.to_string() {
                failures.push(self.document.at(row.line, format!("begins at {at}")));
            }
            if shown.is_empty() || what.is_empty() {
                failures.push(
                    self.document
                        .at(row.line, "shows no bytes, or says not what"),
                );
            } else if !due.starts_with(&shown) {
                let due = spaced(&due[..due.len().min(shown.len())]);
                failures.push(
                    self.document
                        .at(row.line, format!("the book has `{due}` here")),
                );
            }
        }
        if bytes.len() != example.bytes.len() {
            let what = format!("{} bytes, of {}", bytes.len(), example.bytes.len());
            failures.push(self.document.at(self.book.line, what));
        }
        failures.extend(self.not_accepted(&bytes, example));
        failures
    }

    /// Whether the library answers the bytes otherwise than is stated.
    fn not_accepted(&self, bytes: &[u8], example: &Example) -> Option<String> {
        let stated = raw::Checked {
            units: example.units,
            calls: example.calls,
        };
        let answer = raw::check(&self.key, bytes);
        let what = format!("check says {answer:?}");
        (answer != Ok(stated)).then(|| self.document.at(self.book.line, what))
    }

    /// The tweak, the block and what it becomes, of each row of the calls.
    fn shown_calls(&self) -> Result<Vec<[Block; 3]>, String> {
        let rows = self.calls.rows.iter().map(|row| {
            let blocks = row.cells[1..].iter();
            let blocks: Option<Vec<Block>> = blocks
                .map(|cell| cell_bytes(cell)?.try_into().ok())
                .collect();
            let three = blocks.and_then(|blocks| blocks.try_into().ok());
            three.ok_or_else(|| self.document.at(row.line, "has not three times 16 bytes"))
        });
        rows.collect()
    }

    /// What is wrong with the calls, one by one: they are numbered from 1, the cipher makes of each block what is shown,
    /// and no two tweaks are the same.
    fn wrong_calls(&self, shown: &[[Block; 3]], example: &Example) -> Vec<String> {
        let (cipher, steps) = example.suite;
        let mut failures = Vec::new();
        let mut tweaks = BTreeSet::new();
        for ((number, row), [tweak, block, becomes]) in (1..).zip(&self.calls.rows).zip(shown) {
            let mut fail = |what: String| failures.push(self.document.at(row.line, what));
            let told = row.cells[0].split(|c: char| !c.is_ascii_digit()).next();
            if told.is_some_and(|told| !told.is_empty() && told != number.to_string()) {
                fail(format!("is call {number}"));
            }
            let enciphered =
                encipher(cipher, steps, &self.key, tweak, block).expect("a listed suite");
            if enciphered != *becomes {
                fail(format!("the block becomes `{}`", spaced(&enciphered)));
            }
            if !tweaks.insert(tweak) {
                fail("this tweak stands above already".to_string());
            }
        }
        failures
    }

    /// What is wrong with the calls as those of the book's sealings: tweaks and blocks are those of the call lists, and
    /// ciphertext and tag in the book are put together from what they become.
    fn wrong_sealings(&self, shown: &[[Block; 3]], example: &Example) -> Vec<String> {
        let mut failures = Vec::new();
        let mut rows = self.calls.rows.iter().zip(shown);
        for sealing in &example.sealings {
            let list = calls(&sealing.nonce, &sealing.header, &sealing.text);
            let own: Vec<_> = rows.by_ref().take(list.len()).collect();
            for ((row, [tweak, block, _]), call) in own.iter().zip(&list) {
                if (*tweak, *block) != (call.tweak, call.block) {
                    let due = format!("`{}`, `{}`", spaced(&call.tweak), spaced(&call.block));
                    failures.push(self.document.at(row.line, format!("{due} is due")));
                }
            }
            let line = own.last().map_or(self.calls.line, |(row, _)| row.line);
            let becomes: Vec<Block> = own.iter().map(|(_, [_, _, becomes])| *becomes).collect();
            let sealed = assembled(&list, &becomes, &sealing.text);
            failures.extend(self.not_following(line, &sealed, sealing, example));
        }
        if shown.len() as u64 != example.calls {
            let what = format!("{} calls, of {}", shown.len(), example.calls);
            failures.push(self.document.at(self.calls.line, what));
        }
        failures
    }

    /// Whether sealed bytes that end with the call on this line are not those in the book.
    fn not_following(
        &self,
        line: usize,
        sealed: &[u8],
        sealing: &Sealing,
        example: &Example,
    ) -> Option<String> {
        let part = |at: usize, len: usize| &example.bytes[at..at + len];
        let ciphertext = part(sealing.ciphertext, sealing.text.len());
        let follows = sealed == [ciphertext, part(sealing.tag, 16)].concat();
        let what = format!(
            "from the calls up to here follows `{}`, and is not in the book",
            spaced(sealed)
        );
        (!follows).then(|| self.document.at(line, what))
    }

    /// What is wrong with the tables of parts, the first of which is of the first sealing, and so on.
    fn wrong_parts(&self, example: &Example) -> Vec<String> {
        let mut failures = Vec::new();
        for (i, table) in self.parts.iter().enumerate() {
            let sealing = example.sealings.get(i);
            for row in &table.rows {
                let due = sealing.and_then(|sealing| part_of(sealing, &row.cells[0]));
                let shown = row.cells.get(1).and_then(|cell| cell_bytes(cell));
                if shown.as_ref() != due {
                    let due = due
                        .map_or_else(|| "no part".to_string(), |due| format!("`{}`", spaced(due)));
                    failures.push(self.document.at(row.line, format!("is {due}")));
                }
            }
        }
        failures
    }
}

/// The part of a sealing that a row is said to have.
fn part_of<'a>(sealing: &'a Sealing, name: &str) -> Option<&'a Vec<u8>> {
    match name {
        "nonce" => Some(&sealing.nonce),
        "header sealed along" => Some(&sealing.header),
        "text" => Some(&sealing.text),
        _ => None,
    }
}

/// What is wrong with the example in the section under a heading, which is made of the key that is shown there.
fn wrong_example(
    document: &Document,
    heading: &str,
    example: impl Fn(Block) -> Example,
) -> Result<Vec<String>, String> {
    let shown = Shown::under(document, heading)?;
    let calls = shown.shown_calls()?;
    let example = example(shown.key);
    Ok([
        shown.wrong_book(&example),
        shown.wrong_calls(&calls, &example),
        shown.wrong_sealings(&calls, &example),
        shown.wrong_parts(&example),
    ]
    .concat())
}

/// The example is the book as the writer makes it, the older one as it is printed.
#[test]
fn worked_example() {
    let document = Document::read(PAGE);
    let newest = wrong_example(&document, "## An example", |key| {
        known_value_8(Kind::NEWEST, key)
    });
    let older = wrong_example(&document, "## An older book", |key| {
        known_value_8(Kind::Tag10, key)
    });
    assert_none(&[all(newest), all(older)].concat());
}

/// The words that the 16 words of a single bit become.
fn words(matrix: &Matrix) -> String {
    let words = (0..16).map(|bit| format!("{:04X}", times(matrix, 1 << bit)));
    words.collect::<Vec<_>>().join(" ")
}

/// The tables of the ciphers, each under its name: the L-boxes in one block, the S-boxes in the next.
#[test]
fn tables_of_the_ciphers() {
    let document = Document::read(PAGE);
    let section = document.under("## The ciphers").expect("the section");
    let [scream, iscream] = [boxes::scream(), boxes::iscream()];
    let due = [
        format!(
            "Scream {} Scream, inverse {} iScream {}",
            words(&scream.l),
            words(&scream.l_inverse),
            words(&iscream.l)
        ),
        format!("Scream {} iScream {}", spaced(scream.s), spaced(iscream.s)),
    ];
    let fences = document.fences.iter();
    let fences = fences.filter(|fence| section.contains(&fence.line));
    let shown: Vec<String> = fences.map(|fence| fence.lines.join(" ")).collect();
    assert_eq!(shown, due);
}

/// "A block of zeros", under each suite: what the vectors of another implementation have.
#[test]
fn a_block_of_zeros() {
    let document = Document::read(PAGE);
    let table = document.table(&["suite", "becomes"]).expect("the table");
    let vectors = cipher_vectors();
    let zeros = [[0; 16]; 3];
    for (i, (cipher, steps)) in SUITES.into_iter().enumerate() {
        let name = format!("{} {steps}", ["Scream", "iScream"][usize::from(cipher - 1)]);
        let mut vectors = vectors.iter();
        let vector = vectors.find(|vector| {
            (vector.cipher, vector.steps) == (cipher, steps)
                && [vector.key, vector.tweak, vector.block] == zeros
        });
        let becomes = spaced(&vector.expect("a vector of zeros").enciphered);
        assert_eq!(table.rows[i].cells, [name, format!("`{becomes}`")]);
    }
    assert_eq!(table.rows.len(), SUITES.len());
}

/// "A longer seal" is a case of the vectors of another implementation.
#[test]
fn a_longer_seal() {
    let document = Document::read(PAGE);
    let section = document.under("## A longer seal").expect("the section");
    let table = document
        .table_in(&section, &["part", "bytes"])
        .expect("the table");
    let shown: Vec<Vec<u8>> = table
        .rows
        .iter()
        .map(|row| cell_bytes(&row.cells[1]).expect("bytes"))
        .collect();
    let names: Vec<&str> = table.rows.iter().map(|row| row.cells[0].as_str()).collect();
    assert_eq!(
        names,
        [
            "key",
            "nonce",
            "header sealed along",
            "text",
            "ciphertext",
            "tag"
        ]
    );
    // "Sealed by iScream with 12 steps: the last block of the text is full, .. It takes 7 calls."
    let is_shown = |vector: &SealVector| {
        let sealed = vector.sealed.split_at(vector.text.len());
        let parts = [
            &vector.key[..],
            &vector.nonce,
            &vector.header,
            &vector.text,
            sealed.0,
            sealed.1,
        ];
        (vector.cipher, vector.steps, vector.calls) == (2, 12, 7)
            && vector.text.len() % 16 == 0
            && shown == parts
    };
    assert!(
        seal_vectors().iter().any(is_shown),
        "it is no case of the vectors"
    );
}

/// The value of a cell as "12", "m" or "12 + m".
fn value(cell: &str, letters: &[(&str, usize)]) -> usize {
    let known = |word: &str| letters.iter().find(|(letter, _)| *letter == word);
    cell.split(" + ")
        .map(|word| known(word).map_or_else(|| word.parse().expect(word), |(_, value)| *value))
        .sum()
}

/// Holds a table of the layout to bytes that are laid out so: its rows lie one behind the other from the first byte to
/// the last, and where a row begins with bytes these stand there.
fn assert_laid_out(document: &Document, table: &Table, bytes: &[u8], letters: &[(&str, usize)]) {
    let mut at = 0;
    for row in &table.rows {
        let [place, len] = [0, 1].map(|i| value(&row.cells[i], letters));
        assert_eq!(place, at, "{}", document.at(row.line, "its place"));
        at += len;
        let told = row.cells[2]
            .strip_prefix('`')
            .and_then(|rest| rest.split_once('`'));
        if let Some((told, _)) = told {
            let there = spaced(&bytes[place..at]);
            assert_eq!(told, there, "{}", document.at(row.line, "its bytes"));
        }
    }
    assert_eq!(at, bytes.len(), "{}", document.at(table.line, "its end"));
}

/// The kinds in the order of the page: that of the writer first.
const SHOWN_KINDS: [Kind; 2] = [Kind::Tag14, Kind::Tag10];

/// The tables of the layout, on the books of the worked examples: opening fields, of each kind a unit and the close, and
/// a unit's text; and what the page says of the length of each.
#[test]
fn layout() {
    let document = Document::read(PAGE);
    let header = ["at", "bytes", "what it is"];
    let tables = |heading: &str| {
        let section = document.under(heading).expect(heading);
        document.tables_in(&section, &header)
    };
    let [opening, ..] = tables("## A book, byte by byte")[..] else {
        panic!("a table");
    };
    let [text] = tables("## What is sealed")[..] else {
        panic!("one table");
    };
    let words: Vec<&str> = document.source.text.split_whitespace().collect();
    let words = words.join(" ");
    for kind in SHOWN_KINDS {
        let [unit, close] = tables(&format!("### Kind {:02X}", kind.header_tag()))[..] else {
            panic!("two tables");
        };
        let example = known_value_8(kind, [7; 16]);
        let sealing = &example.sealings[0];
        let m = sealing.text.len();
        let places = places(&Book::known(kind, [7; 16]));
        let laid_out = |table, range: Range<usize>| {
            assert_laid_out(&document, table, &example.bytes[range], &[("m", m)]);
        };
        laid_out(opening, 0..places[0]);
        laid_out(unit, places[0]..places[1]);
        laid_out(close, places[1]..example.bytes.len());
        assert_laid_out(&document, text, &sealing.text, &[("s", 5), ("t", 6)]);

        // s and t are 5 and 6, and so m is 13
        let (unit, close) = (places[1] - places[0], example.bytes.len() - places[1]);
        let headers = [0, 1].map(|i| example.sealings[i].header.len());
        for due in [
            format!("**A unit**, {} + m bytes", unit - m),
            format!("**The close**, {close} bytes:"),
            format!(
                "16 + the sum of ({} + s + t) over its units + {close} bytes",
                unit - 11
            ),
            match kind {
                Kind::Tag14 => format!(
                    "of kind 14 has {} bytes, that of a close {};",
                    headers[0], headers[1]
                ),
                Kind::Tag10 => format!("of kind 10 it has {} and {}.", headers[0], headers[1]),
            },
        ] {
            assert!(words.contains(&due), "{}", document.at(1, due));
        }
    }
}

/// The table of kinds: tags and widths are those of the worked examples, and a book of a kind has as many units at most as
/// the second implementation's writer of that kind adds.
#[test]
fn kinds() {
    let document = Document::read(PAGE);
    let table = document.table(&[
        "kind",
        "tag of a unit",
        "tag of the close",
        "bytes of a number",
        "units at most",
        "written by",
    ]);
    let rows = &table.expect("the table of kinds").rows;
    assert_eq!(rows.len(), SHOWN_KINDS.len());
    for (row, kind) in rows.iter().zip(SHOWN_KINDS) {
        let places = places(&Book::known(kind, [7; 16]));
        let bytes = known_value_8(kind, [7; 16]).bytes;
        let tags = [places[0], places[1]].map(|at| format!("{:02X}", bytes[at]));
        // the close's first field has the count alone
        let width = u16::from_be_bytes([bytes[places[1] + 1], bytes[places[1] + 2]]);
        let due = [
            tags[0].clone(),
            format!("`{}`", tags[0]),
            format!("`{}`", tags[1]),
            width.to_string(),
            kind.most_units().to_string(),
        ];
        let told: Vec<String> = row.cells[..5]
            .iter()
            .map(|cell| cell.replace(',', ""))
            .collect();
        assert_eq!(told, due, "{}", document.at(row.line, "differs"));
    }
    let newest = rows[0].cells[4].replace(',', "");
    assert_eq!(newest, raw::UNITS_MAX.to_string());
    assert_eq!(SHOWN_KINDS[0], Kind::NEWEST);
}

/// The table of the tweaks: the byte behind the nonce of each.
#[test]
fn tweaks() {
    let document = Document::read(PAGE);
    let table = document.table(&["for", "the 16 − n bytes behind the nonce"]);
    let due = [
        ("text block i, not the last", Place::Text(0)),
        ("header block i, not the last", Place::Header(0)),
        ("last header block, full", Place::HeaderLastFull),
        ("last header block, partial", Place::HeaderLastPartial),
        ("last text block, full", Place::TextLastFull),
        ("last text block, partial", Place::TextLastPartial),
        ("the tag, text with a full last block", Place::TagAfterFull),
        (
            "the tag, text with a partial last block or empty",
            Place::TagAfterPartial,
        ),
    ];
    let rows = &table.expect("the table").rows;
    assert_eq!(rows.len(), due.len());
    for (row, (name, place)) in rows.iter().zip(due) {
        let mark = tweak(&[0; 12], place)[12];
        let told = row.cells[1].split('`').nth(1).unwrap_or("00");
        let told = (row.cells[0].as_str(), u8::from_str_radix(told, 16));
        assert_eq!(
            told,
            (name, Ok(mark)),
            "{}",
            document.at(row.line, "differs")
        );
    }
}
