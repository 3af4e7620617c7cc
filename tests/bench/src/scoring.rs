//! Scores of two segments.

use bench::baseline;
use bench::chains::{on_one_chain, slow_segments};
use bench::cost::{Per, Rounds};
use bench::counter::Cycles;
use bench::table::{Contestant, Line, Table};
use bench::words::sentence;
use reference::random::Random;
use reference::score::score;
use sealed_book::raw;

/// Bytes on each side, and how many sources are scored in turn.
const LENGTHS: [(usize, usize); 6] = [
    (20, 8_192),
    (60, 8_192),
    (100, 8_192),
    (200, 8_192),
    (1_024, 1_024),
    (4_096, 256),
];

/// Longer than any segment of a book.
const LONGER: usize = 8_192;

/// The second implementation scores as many at most.
const FEWER: usize = 256;

/// Sources, a typed sentence of the same length, and the scores, as they were given last.
#[derive(Clone)]
struct Data {
    sources: Vec<Vec<u8>>,
    typed: Vec<u8>,
    scores: Vec<u8>,
}

impl Data {
    fn new(sources: Vec<Vec<u8>>, typed: Vec<u8>) -> Data {
        Data {
            sources,
            typed,
            scores: Vec::new(),
        }
    }

    /// Sentences, no two of them the same.
    fn words(len: usize, count: usize) -> Data {
        let mut random = Random::new(2014);
        let typed = sentence(&mut random, len);
        let sources = (0..count).map(|_| sentence(&mut random, len));
        Data::new(sources.collect(), typed)
    }

    /// Any bytes.
    fn bytes(len: usize, count: usize) -> Data {
        let mut random = Random::new(2014);
        let typed = random.some_bytes(len);
        let sources = (0..count).map(|_| random.some_bytes(len));
        Data::new(sources.collect(), typed)
    }

    /// Many copies of one letter.
    fn one_letter(len: usize, count: usize) -> Data {
        Data::new(vec![vec![b'a'; len]; count], vec![b'a'; len])
    }

    fn score_by(&mut self, score: impl Fn(&[u8], &[u8]) -> u32) {
        self.scores.clear();
        for source in &self.sources {
            let score = score(source, &self.typed);
            self.scores.extend(score.to_be_bytes());
        }
    }
}

/// The lines of the table; 4,096 bytes stand after 1,024.
fn lines() -> Vec<Line<Data>> {
    let mut lines = Vec::new();
    let words: fn(usize, usize) -> Data = Data::words;
    for (name, data) in [("words", words), ("a's", Data::one_letter)] {
        for (len, count) in LENGTHS {
            lines.push(Line {
                cells: format!("{name:<7}{len:>6}{count:>9}"),
                size: count,
                later: len == 4_096,
                data: data(len, count),
                less: (count > FEWER).then(|| (FEWER, data(len, FEWER))),
                turns: 1,
            });
        }
    }
    let [source, typed] = slow_segments(4_096);
    for (name, len, data) in [
        ("bytes", 4_096, Data::bytes(4_096, 64)),
        ("chosen", 4_096, Data::new(vec![source], typed)),
        ("a's", LONGER, Data::one_letter(LONGER, 16)),
        ("words", LONGER, Data::words(LONGER, 16)),
        ("bytes", LONGER, Data::bytes(LONGER, 4)),
    ] {
        let size = data.sources.len();
        lines.push(Line {
            cells: format!("{name:<7}{len:>6}{size:>9}"),
            size,
            later: false,
            data,
            less: None,
            turns: 1,
        });
    }
    lines
}

/// Measures all lines in turns, and prints the table.
pub fn table(counter: &mut Option<Cycles>) {
    let chosen = slow_segments(4_096).map(|segment| on_one_chain(&segment));
    let table = Table {
        title: "Scores of two segments: nanoseconds and cycles a call.",
        contestants: vec![
            Contestant::library(1, |data: &mut Data| data.score_by(raw::score)),
            Contestant::reference(", on fewer sources", 1, |data: &mut Data| {
                data.score_by(score);
            })
            .up_to(FEWER),
            Contestant::baseline("", 1, |data: &mut Data| data.score_by(baseline::score)),
        ],
        notes: vec![
            "Bytes is the length of either segment; one typed sentence is scored with so many sources in turn.".to_string(),
            format!("Chosen are two segments that a search has found: {} and {} of their 4094 trigrams fall on one", chosen[0], chosen[1]),
            "chain of the library's table, and none of these is shared. Bytes are any, at random.".to_string(),
        ],
        on_numbers: vec![
            "Ratios are of ns; to 1024 is the library's call on 4096 bytes to that on 1024.",
        ],
        per: Per::Unit,
        rounds: Rounds::USUAL,
        head: format!("{:<7}{:>6}{:>9}", "kind", "bytes", "sources"),
        later: Some(["to", "1024"]),
        lines: lines(),
        left: |data| &data.scores,
    };
    table.print(counter);
}
