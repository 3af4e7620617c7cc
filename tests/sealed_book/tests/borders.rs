//! Lengths at the borders of runs of blocks, against the reference. 64 blocks go side by side, and of those that are
//! left over 8 or more as well. A sealing's last run has up to 63 blocks of the header, up to 64 of the text, and the
//! tag's; an opening's first one has up to 63 of the header and one for the text's last block; a text is deciphered in
//! parts of up to 64 blocks.

mod common;

use common::checking::accepts;
use common::fetching::{fetches, Which};
use common::paging::pages;
use common::parts::{books_of_each_kind, written};
use common::sealing::Given;
use common::writing::unit;
use reference::cipher::SUITES;
use reference::random::Random;
use sealed_book::raw::FIRST_UNIT;

const SEED: u64 = 0x424F_5244;

/// Headers of 6 to 8 blocks, of 60 and 61, of 63 to 65, of 72 and 73.
const HEADERS: [usize; 13] = [
    0, 25, 96, 97, 112, 113, 960, 961, 1_008, 1_009, 1_025, 1_152, 1_153,
];

/// Numbers of blocks of a run at which something else is done with the last ones.
const RUNS: [usize; 11] = [7, 8, 9, 63, 64, 65, 71, 72, 73, 124, 125];

/// Lengths of texts that have so many blocks, the last of them whole, or of one byte.
fn with_blocks(blocks: usize) -> [usize; 2] {
    [16 * blocks, 16 * blocks - 15]
}

/// Texts that are sealed with a header of so many blocks in such runs, or opened in such runs, and those about 1,024
/// bytes and twice as many.
fn texts(header_blocks: usize) -> Vec<usize> {
    let in_run = if header_blocks <= 63 {
        header_blocks
    } else {
        0
    };
    let sealed = RUNS.iter().filter_map(|run| run.checked_sub(in_run + 1));
    let sealed = sealed.filter(|blocks| (1..=64).contains(blocks));
    let opened = [7, 8, 63, 64, 71, 72].map(|blocks| blocks + 1);
    let mut texts: Vec<usize> = sealed.chain(opened).flat_map(with_blocks).collect();
    texts.extend([0, 1, 1_023, 1_024, 1_025, 2_047, 2_048, 2_049]);
    texts.sort_unstable();
    texts.dedup();
    texts
}

#[test]
fn sealing_and_opening() {
    let mut random = Random::new(SEED);
    for suite in SUITES {
        for header in HEADERS {
            // the last three: 8,208 bytes are the most that opening deciphers only once
            for text in texts(header.div_ceil(16)).into_iter().chain(8_207..=8_209) {
                let given = Given::random(&mut random, suite, 12, header, text);
                given.there_and_back(&format!("seed {SEED:X}"));
            }
        }
    }
}

/// Lengths of source and target: of texts as above, whose header has two blocks, and sources that a page deciphers in
/// such runs, beside a target and without one.
fn lengths() -> Vec<(usize, usize)> {
    let texts = texts(2).into_iter().filter(|text| *text > 44);
    let texts = texts.flat_map(|text| [(text - 2, 0), (text - 42, 40), (1, text - 3)]);
    let sources = [7, 8, 63, 64, 71, 72].map(|blocks| 16 * (blocks + 1) - 2);
    let sources = sources.into_iter().flat_map(|s| [(s, 40), (s + 1, 40)]);
    texts.chain(sources).collect()
}

#[test]
fn books() {
    let mut random = Random::new(SEED + 1);
    let name = format!("seed {:X}", SEED + 1);
    let books = SUITES.map(|suite| books_of_each_kind(&mut random, suite));
    for mut book in books.into_iter().flatten() {
        let units = lengths().into_iter();
        book.units = units.map(|(s, t)| unit(&mut random, s, t)).collect();
        let (bytes, writer) = written(&book);
        let (laid_out, calls) = book.laid_out();
        let suite = (book.cipher, book.steps);
        assert!(bytes == laid_out, "as the reference: {suite:?}, {name}");
        assert_eq!(writer.calls, calls as u64, "{suite:?}, {name}");
        accepts(&book.key, &bytes, writer.units, writer.calls, &name);

        let mut at = FIRST_UNIT;
        for (k, unit) in book.units.iter().enumerate() {
            for which in [Which::Walked(k as u64), Which::Placed(k as u64, at)] {
                fetches(&book.key, &bytes, which, unit, &name);
            }
            at += unit.len(book.kind);
        }
        let typed = &book.units[random.below(book.units.len())].source;
        pages(&book, &bytes, typed, &name);
    }
}
