//! The block ciphers: one block and many, in the library, the reference and the baseline in C.

use bench::baseline;
use bench::cost::{Per, Rounds};
use bench::counter::Cycles;
use bench::table::{Contestant, Line, Table, SUITES};
use reference::random::Random;
use sealed_book::raw;

type Block = [u8; 16];

/// Blocks in the long measurement: 16 KiB.
const MANY: usize = 1024;

#[derive(Clone, Copy)]
enum Direction {
    Encipher,
    Decipher,
}

/// Key, tweaks and blocks to measure on, and what is done with them.
#[derive(Clone)]
struct Data {
    suite: (u8, u8),
    direction: Direction,
    key: Block,
    tweaks: Vec<Block>,
    blocks: Vec<Block>,
}

impl Data {
    fn new(suite: (u8, u8), direction: Direction, blocks: usize) -> Data {
        let mut random = Random::new(2014);
        let mut data = Data {
            suite,
            direction,
            key: random.bytes(),
            tweaks: vec![[0; 16]; blocks],
            blocks: vec![[0; 16]; blocks],
        };
        random.fill(data.tweaks.as_flattened_mut());
        random.fill(data.blocks.as_flattened_mut());
        data
    }
}

fn library(data: &mut Data) {
    let ((c, s), key) = (data.suite, &data.key);
    let (tweaks, blocks) = (&data.tweaks[..], &mut data.blocks[..]);
    let answer = if let ([tweak], [block]) = (tweaks, &mut *blocks) {
        match data.direction {
            Direction::Encipher => raw::encipher(c, s, key, tweak, block),
            Direction::Decipher => raw::decipher(c, s, key, tweak, block),
        }
    } else {
        let (tweaks, blocks) = (tweaks.as_flattened(), blocks.as_flattened_mut());
        match data.direction {
            Direction::Encipher => raw::encipher_blocks(c, s, key, tweaks, blocks),
            Direction::Decipher => raw::decipher_blocks(c, s, key, tweaks, blocks),
        }
    };
    answer.expect("the suite is listed");
}

fn second(data: &mut Data) {
    let ((c, s), key) = (data.suite, &data.key);
    for (tweak, block) in data.tweaks.iter().zip(&mut data.blocks) {
        let answer = match data.direction {
            Direction::Encipher => reference::cipher::encipher(c, s, key, tweak, block),
            Direction::Decipher => reference::cipher::decipher(c, s, key, tweak, block),
        };
        *block = answer.expect("the suite is listed");
    }
}

fn in_c(data: &mut Data) {
    let ((c, s), key) = (data.suite, &data.key);
    let (tweaks, blocks) = (&data.tweaks[..], &mut data.blocks[..]);
    let listed = if let ([tweak], [block]) = (tweaks, &mut *blocks) {
        match data.direction {
            Direction::Encipher => baseline::encipher(c, s, key, tweak, block),
            Direction::Decipher => baseline::decipher(c, s, key, tweak, block),
        }
    } else {
        let (tweaks, blocks) = (tweaks.as_flattened(), blocks.as_flattened_mut());
        match data.direction {
            Direction::Encipher => baseline::encipher_blocks(c, s, key, tweaks, blocks),
            Direction::Decipher => baseline::decipher_blocks(c, s, key, tweaks, blocks),
        }
    };
    assert!(listed);
}

/// The lines of the table.
fn lines() -> Vec<Line<Data>> {
    let mut lines = Vec::new();
    for (name, suite) in SUITES {
        for (word, direction) in [
            ("encipher", Direction::Encipher),
            ("decipher", Direction::Decipher),
        ] {
            for blocks in [1, MANY] {
                lines.push(Line {
                    cells: format!("{name:<11}{word:<10}{blocks:>6}"),
                    size: 16 * blocks,
                    later: false,
                    data: Data::new(suite, direction, blocks),
                    less: None,
                    turns: 1,
                });
            }
        }
    }
    lines
}

/// Measures all lines in turns, and prints the table.
pub fn table(counter: &mut Option<Cycles>) {
    let cycles = match counter {
        Some(_) => "Cycles are those of user mode, by the hardware's counter.",
        None => "Cycles are -, since the hardware's counter was refused.",
    };
    let table = Table {
        title: "Block ciphers: nanoseconds (ns/B) and cycles (c/B) a byte.",
        contestants: vec![
            Contestant::library(32_000, library),
            Contestant::reference(", from the tables", 800, second),
            Contestant::baseline(", one block at a time, L-boxes by tables", 32_000, in_c),
        ],
        notes: vec![
            "One block: calls in a chain, each on the block that the last one left.".to_string(),
            format!("{MANY} blocks: one call for 16 KiB, each block under its own tweak."),
        ],
        on_numbers: vec![
            cycles,
            "Ratios are of ns/B: under 1 the library is the faster one.",
        ],
        per: Per::Byte,
        rounds: Rounds::USUAL,
        head: format!("{:<21}{:>6}", "suite", "blocks"),
        later: None,
        lines: lines(),
        left: |data| data.blocks.as_flattened(),
    };
    table.print(counter);
}
