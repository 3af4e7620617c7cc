//! Sealing and opening, beside the calls of the cipher that they take.

use bench::baseline;
use bench::calls::CallList;
use bench::cost::{Per, Rounds};
use bench::counter::Cycles;
use bench::table::{Contestant, Line, Table, SUITES};
use reference::random::Random;
use sealed_book::raw;

/// Lengths of the texts, of the header that is sealed along, that of a unit, and of the nonce.
const TEXTS: [usize; 3] = [16, 200, 8192];
const HEADER: usize = 27;
const NONCE: usize = 12;

#[derive(Clone, Copy, PartialEq)]
enum Direction {
    Seal,
    Open,
}

/// What is sealed or opened, what comes of it, and the call list.
#[derive(Clone)]
struct Data {
    suite: (u8, u8),
    direction: Direction,
    key: [u8; 16],
    nonce: [u8; NONCE],
    header: [u8; HEADER],
    text: Vec<u8>,
    sealed: Vec<u8>,
    out: Vec<u8>,
    calls: CallList,
}

impl Data {
    fn new(suite: (u8, u8), direction: Direction, len: usize) -> Data {
        let mut random = Random::new(2014);
        let (key, nonce, header) = (random.bytes(), random.bytes(), random.bytes());
        let text = random.some_bytes(len);
        let (c, s) = suite;
        let sealed = reference::sealing::seal(c, s, &key, &nonce, &header, &text, len + 16);
        let (sealed, _) = sealed.expect("within the limits");
        let opened = reference::sealing::open(c, s, &key, &nonce, &header, &sealed, len);
        assert!(opened.as_ref() == Ok(&text));
        Data {
            suite,
            direction,
            key,
            nonce,
            header,
            out: vec![0; len + 16],
            calls: CallList::new(suite, key, &nonce, &header, &text),
            text,
            sealed,
        }
    }

    /// What sealing or opening has left.
    fn left(&self) -> &[u8] {
        match self.direction {
            Direction::Seal => &self.out,
            Direction::Open => &self.out[..self.text.len()],
        }
    }
}

fn library(data: &mut Data) {
    let (c, s) = data.suite;
    let Data {
        key,
        nonce,
        header,
        text,
        sealed,
        out,
        ..
    } = data;
    let done = match data.direction {
        Direction::Seal => raw::seal(c, s, key, nonce, header, text, out).is_ok(),
        Direction::Open => raw::open(c, s, key, nonce, header, sealed, out).is_ok(),
    };
    assert!(done);
}

fn second(data: &mut Data) {
    let ((c, s), len) = (data.suite, data.out.len());
    let Data {
        key,
        nonce,
        header,
        text,
        sealed,
        out,
        ..
    } = data;
    let result = match data.direction {
        Direction::Seal => {
            reference::sealing::seal(c, s, key, nonce, header, text, len).map(|(sealed, _)| sealed)
        }
        Direction::Open => reference::sealing::open(c, s, key, nonce, header, sealed, len),
    };
    let result = result.expect("not refused");
    out[..result.len()].copy_from_slice(&result);
}

fn in_c(data: &mut Data) {
    let (c, s) = data.suite;
    let Data {
        key,
        nonce,
        header,
        text,
        sealed,
        out,
        ..
    } = data;
    let answer = match data.direction {
        Direction::Seal => baseline::seal(c, s, key, nonce, header, text, out),
        Direction::Open => baseline::open(c, s, key, nonce, header, sealed, out),
    };
    assert_eq!(answer, Ok(()));
}

/// The lines of the table; an opening stands after the sealing of the same text.
fn lines() -> Vec<Line<Data>> {
    let mut lines = Vec::new();
    for (name, suite) in SUITES {
        for len in TEXTS {
            for (word, direction) in [("seal", Direction::Seal), ("open", Direction::Open)] {
                lines.push(Line {
                    cells: format!("{name:<11}{word:<5}{len:>6}"),
                    size: len,
                    later: direction == Direction::Open,
                    data: Data::new(suite, direction, len),
                    less: None,
                    turns: 1,
                });
            }
        }
    }
    lines
}

/// Measures all lines in turns, and prints the table.
pub fn table(counter: &mut Option<Cycles>) {
    let table = Table {
        title: "Sealing and opening: nanoseconds and cycles a byte of the text.",
        contestants: vec![
            Contestant::library(8192, library),
            Contestant::calls(8192, |data| data.calls.encipher()),
            Contestant::reference("", 400, second),
            Contestant::baseline(", which opens by way of a buffer", 8192, in_c),
        ],
        notes: vec![format!(
            "Each text has a header of {HEADER} bytes and a nonce of {NONCE}."
        )],
        on_numbers: vec!["Ratios are of ns/B; open/seal is the library's opening to its sealing."],
        per: Per::Byte,
        rounds: Rounds::USUAL,
        head: format!("{:<16}{:>6}", "suite", "bytes"),
        later: Some(["open/", "seal"]),
        lines: lines(),
        left: Data::left,
    };
    table.print(counter);
}
