//! Checking a book, beside the calls of the cipher that it takes.

use bench::baseline;
use bench::calls::OpenCalls;
use bench::cost::{Per, Rounds};
use bench::counter::Cycles;
use bench::table::{Contestant, Line, Table, SUITES};
use reference::check::check;
use reference::random::Random;
use sealed_book::raw::{self, Checked, Writer};

/// Units of the books.
const UNITS: [usize; 3] = [600, 6_000, 60_000];

/// A book that the library has written, the calls of checking it, and the two counts, as they were
/// given last.
#[derive(Clone)]
struct Data {
    key: [u8; 16],
    book: Vec<u8>,
    calls: OpenCalls,
    counts: [u8; 16],
}

impl Data {
    /// A book of so many units, each with 80 to 120 bytes in either segment.
    fn new(suite: (u8, u8), units: usize) -> Data {
        let mut random = Random::new(2014);
        let (cipher, steps) = suite;
        let key = random.bytes();
        let mut book = vec![0; raw::book_room(units, units * 240)];
        let (mut writer, mut answer) = Writer::start(cipher, steps, &key, 7, &mut book);
        let mut texts = Vec::new();
        for _ in 0..units {
            assert_eq!(answer, Ok(()));
            let [source, target] = [80, 80].map(|len| {
                let len = len + random.below(41);
                random.some_bytes(len)
            });
            (writer, answer) = writer.add(&mut book, b"en", b"de", &source, &target);
            texts.push(2 + source.len() + target.len());
        }
        assert_eq!(answer, Ok(()));
        (writer, answer) = writer.close(&mut book);
        assert_eq!(answer, Ok(()));
        book.truncate(writer.place as usize);
        let calls = OpenCalls::of_book(suite, key, texts.into_iter());
        assert_eq!(calls.count() as u64, writer.calls);
        Data {
            key,
            book,
            calls,
            counts: [0; 16],
        }
    }

    /// Keeps the counts of a check.
    fn keep(&mut self, units: u64, calls: u64) {
        self.counts[..8].copy_from_slice(&units.to_be_bytes());
        self.counts[8..].copy_from_slice(&calls.to_be_bytes());
    }
}

fn library(data: &mut Data) {
    let Checked { units, calls } = raw::check(&data.key, &data.book).expect("accepted");
    data.keep(units, calls);
}

fn second(data: &mut Data) {
    let (units, calls) = check(&data.key, &data.book).expect("accepted");
    data.keep(units, calls);
}

fn in_c(data: &mut Data) {
    let (units, calls) = baseline::check(&data.key, &data.book).expect("accepted");
    data.keep(units, calls);
}

/// The lines of the table; the longer books of a suite stand after the shortest.
fn lines() -> Vec<Line<Data>> {
    let mut lines = Vec::new();
    for (name, suite) in SUITES {
        for units in UNITS {
            lines.push(Line {
                cells: format!("{name:<11}{units:>7}"),
                size: units,
                later: units > UNITS[0],
                data: Data::new(suite, units),
                less: None,
                turns: 1,
            });
        }
    }
    lines
}

/// Measures all lines in turns, and prints the table.
pub fn table(counter: &mut Option<Cycles>) {
    let calls =
        "its functions on many blocks alone, two calls a unit, on as many as its call list has";
    let table = Table {
        title: "Checking a book: nanoseconds and cycles a unit.",
        contestants: vec![
            Contestant::library(1_200, library),
            Contestant::calls_by(calls, 1_200, |data| data.calls.run()),
            Contestant::reference(", on the shortest books", 600, second).up_to(UNITS[0]),
            Contestant::baseline("", 1_200, in_c),
        ],
        notes: vec![
            "Units is how many the book has; each has 160 to 240 bytes in source and target together."
                .to_string(),
        ],
        on_numbers: vec![
            "Ratios are of ns; to first is the library's check of a longer book to that of 600 units.",
        ],
        per: Per::Unit,
        rounds: Rounds::USUAL,
        head: format!("{:<11}{:>7}", "suite", "units"),
        later: Some(["to", "first"]),
        lines: lines(),
        left: |data| &data.counts,
    };
    table.print(counter);
}
