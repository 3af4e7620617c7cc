//! Adding a unit to a book, beside the calls of the cipher that its sealing takes.

use std::hint::black_box;

use bench::baseline;
use bench::calls::CallList;
use bench::cost::{Per, Rounds};
use bench::counter::Cycles;
use bench::table::{Contestant, Line, Table, SUITES};
use reference::book::{field, Kind, Unit};
use reference::random::Random;
use reference::writer::Writer;
use sealed_book::raw;

/// The book's number.
const NUMBER: u64 = 7;

/// Lengths of source and target together, each half of that, and which add of its book it is.
const UNITS: [(usize, usize); 3] = [(200, 1), (200, 60_000), (8192, 1)];

/// A unit, the writer and the buffer that it is added to, and the call list of its sealing.
#[derive(Clone)]
struct Data {
    unit: Unit,
    writer: Writer,
    buffer: Vec<u8>,
    calls: CallList,
}

impl Data {
    /// For the add of this number in its book, from 1; the units before it are as long.
    fn new(suite: (u8, u8), len: usize, add: usize) -> Data {
        let mut random = Random::new(2014);
        let unit = Unit {
            from: *b"en",
            to: *b"de",
            source: random.some_bytes(len / 2),
            target: random.some_bytes(len / 2),
        };

        let (cipher, steps) = suite;
        let before = add - 1;
        let number = (before as u32).to_be_bytes();
        let nonce = [&NUMBER.to_be_bytes()[..], &number].concat();
        let in_header = &number[4 - Kind::NEWEST.number_bytes()..];
        let value = [in_header, &unit.from, &unit.to].concat();
        let header = [
            field(0x01, &NUMBER.to_be_bytes()),
            field(0x02, &[cipher, steps]),
            field(Kind::NEWEST.header_tag(), &value),
        ];
        let key = random.bytes();
        let calls = CallList::new(suite, key, &nonce, &header.concat(), &unit.text());

        let place = raw::FIRST_UNIT + before * raw::unit_room(len, 0);
        Data {
            writer: Writer {
                cipher,
                steps,
                key,
                number: NUMBER,
                place: place as u64,
                units: before as u64,
                calls: (before * calls.count()) as u64,
                closed: false,
            },
            buffer: vec![0; place + raw::unit_room(len, 0)],
            unit,
            calls,
        }
    }
}

fn library(data: &mut Data) {
    let Data { unit, buffer, .. } = data;
    let mut writer = data.writer.encoded();
    let (source, target) = (&unit.source, &unit.target);
    let answer = raw::add(&mut writer, buffer, &unit.from, &unit.to, source, target);
    assert_eq!(answer, Ok(()));
    black_box(writer);
}

fn second(data: &mut Data) {
    let Data { unit, buffer, .. } = data;
    let (source, target) = (&unit.source, &unit.target);
    let (writer, answer) = data.writer.add(buffer, unit.from, unit.to, source, target);
    assert_eq!(answer, Ok(()));
    black_box(writer);
}

fn in_c(data: &mut Data) {
    let Data { unit, buffer, .. } = data;
    let mut writer = baseline::Writer {
        number: data.writer.number,
        place: data.writer.place,
        units: data.writer.units,
        calls: data.writer.calls,
        key: data.writer.key,
        cipher: data.writer.cipher,
        steps: data.writer.steps,
        open: 1,
    };
    let (source, target) = (&unit.source, &unit.target);
    let answer = writer.add(buffer, &unit.from, &unit.to, source, target);
    assert_eq!(answer, Ok(()));
    black_box(writer);
}

/// The lines of the table; a late add stands after the first one of the same length.
fn lines() -> Vec<Line<Data>> {
    let mut lines = Vec::new();
    for (name, suite) in SUITES {
        for (len, add) in UNITS {
            lines.push(Line {
                cells: format!("{name:<11}{len:>6}{add:>7}"),
                size: len,
                later: add > 1,
                data: Data::new(suite, len, add),
                less: None,
                turns: 1,
            });
        }
    }
    lines
}

/// Measures all lines in turns, and prints the table.
pub fn table(counter: &mut Option<Cycles>) {
    let table = Table {
        title: "Adding a unit to a book: nanoseconds and cycles an add.",
        contestants: vec![
            Contestant::library(8192, library),
            Contestant::calls(8192, |data| data.calls.encipher()),
            Contestant::reference("", 400, second),
            Contestant::baseline("", 8192, in_c),
        ],
        notes: vec![
            "Bytes are those of source and target together; add is its number in the book."
                .to_string(),
        ],
        on_numbers: vec!["Ratios are of ns; to first is the library's late add to its first one."],
        per: Per::Call,
        rounds: Rounds::USUAL,
        head: format!("{:<11}{:>6}{:>7}", "suite", "bytes", "add"),
        later: Some(["to", "first"]),
        lines: lines(),
        left: |data| &data.buffer,
    };
    table.print(counter);
}
