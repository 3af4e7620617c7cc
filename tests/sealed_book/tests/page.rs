//! Pages of books that checking accepts: the request's example, random books of every suite, typed sentences
//! of many lengths, and every length of the page's buffer. Pages of long books are in kinds.rs.

mod common;

use common::paging::{of_book, page_gives, pages};
use common::parts::{books_of_each_kind, random_book, some_book, written};
use common::texts::{edited, text, KINDS};
use common::writing::unit;
use reference::book::{Book, Kind, Unit};
use reference::cipher::SUITES;
use reference::random::Random;
use sealed_book::raw::{self, ROW_LEN};

const SEED: u64 = 0x5041_4745;

/// "A unit "valve" against a typed "valves" gives `    5   857`." And other sentences, also an empty one.
#[test]
fn known_book() {
    let mut random = Random::new(SEED);
    let books = Kind::ALL.map(|kind| Book::known(kind, random.bytes()));
    for (typed, row) in [
        ("valves", "    5   857\n"),
        ("valve", "    5  1000\n"),
        ("", "    5     0\n"),
        ("va", "    5     0\n"),
        ("Ventil", "    5     0\n"),
        // val of 1 and 3 runs
        ("val", "    5   500\n"),
        // val, alv and lve of 31 and 3 runs: 6,000 / 34
        ("Close the valve and wait a little", "    5   176\n"),
    ] {
        for book in &books {
            let (bytes, _) = written(book);
            assert_eq!(of_book(book, typed.as_bytes()), row.as_bytes(), "{typed}");
            pages(book, &bytes, typed.as_bytes(), typed);
        }
    }
    for book in &books {
        let (bytes, _) = written(book);
        let mut page = [b'.'; 15];
        let len = raw::page(&book.key, &bytes, b"valves", &mut page);
        assert_eq!((len, &page), (Ok(12), b"    5   857\n..."));
    }
}

/// A unit with a source of this kind and length, and a target that must not matter.
fn some_unit(random: &mut Random, s: usize, t: usize) -> Unit {
    let kind = random.one_of(&KINDS);
    Unit {
        source: text(random, kind, s),
        ..unit(random, 1, t)
    }
}

/// A length of 1 to 4,096 bytes: mostly short, at times at a limit.
fn some_length(random: &mut Random) -> usize {
    match random.below(12) {
        0 => random.one_of(&[1, 2, 3, 4, 13, 14, 15, 16, 30, 46]),
        1 => random.one_of(&[254, 255, 256, 257, 258, 259, 999, 1_000]),
        2 => random.one_of(&[4_094, 4_095, 4_096]),
        3 => 1 + random.below(4_096),
        _ => 1 + random.below(120),
    }
}

const TYPED: [usize; 15] = [
    0, 1, 2, 3, 20, 255, 257, 258, 259, 300, 4_095, 4_096, 4_097, 4_098, 10_000,
];

/// Books of 0 to 40 units of all suites, with typed sentences of many lengths: such as have nothing to do with
/// the book, and such as are near one of its sources.
#[test]
fn random_books() {
    let mut random = Random::new(SEED + 1);
    let mut digits = [0; 5];
    for suite in SUITES {
        for units in [0, 1, 2, 5, random.below(20), 40] {
            let mut book = some_book(&mut random, suite);
            for _ in 0..units {
                let (s, t) = (some_length(&mut random), random.below(60));
                book.units.push(some_unit(&mut random, s, t));
            }
            let (bytes, _) = written(&book);
            let name = format!("suite {suite:?}, seed {:X}", SEED + 1);
            for _ in 0..2 {
                let (len, kind) = (random.one_of(&TYPED), random.one_of(&KINDS));
                let typed = text(&mut random, kind, len);
                pages(&book, &bytes, &typed, &name);
                let Some(near) = book.units.get(random.below(units + 1)) else {
                    continue;
                };
                let typed = edited(&mut random, &near.source);
                pages(&book, &bytes, &typed, &format!("near a source, {name}"));
                for row in of_book(&book, &typed).chunks_exact(ROW_LEN) {
                    digits[row[5..11].trim_ascii_start().len()] += 1;
                }
            }
        }
    }
    assert!(digits[1..].iter().all(|rows| *rows > 5), "{digits:?}");
}

/// Each length of the typed sentence, with one book.
#[test]
fn every_typed_length() {
    let mut random = Random::new(SEED + 2);
    let mut book = some_book(&mut random, (2, 8));
    book.units = [1, 2, 3, 40, 256, 300, 4_096]
        .map(|s| some_unit(&mut random, s, 9))
        .to_vec();
    let (bytes, _) = written(&book);
    for kind in KINDS {
        for len in TYPED {
            let typed = text(&mut random, kind, len);
            pages(
                &book,
                &bytes,
                &typed,
                &format!("{kind:?}, seed {:X}", SEED + 2),
            );
        }
        for len in 0..=270 {
            let typed = text(&mut random, kind, len);
            let answer = Ok(of_book(&book, &typed));
            let name = format!("{kind:?}, seed {:X}", SEED + 2);
            page_gives(&book.key, &bytes, &typed, 84, &answer, &name);
        }
    }
}

/// A source of every length up to 300, and long ones: the first block of its text and its last one.
#[test]
fn every_source_length() {
    let mut random = Random::new(SEED + 3);
    for (i, suite) in SUITES.into_iter().enumerate() {
        let mut book = some_book(&mut random, suite);
        for s in (1..=300).chain([1_000, 4_094, 4_095, 4_096]) {
            let t = random.one_of(&[0, 0, 1, 2, 13, 14, 15, 16, 30]);
            book.units.push(some_unit(&mut random, s, t));
        }
        let (bytes, _) = written(&book);
        let typed = text(&mut random, KINDS[i % 7], 200);
        let answer = Ok(of_book(&book, &typed));
        let room = ROW_LEN * book.units.len();
        let name = format!("suite {suite:?}, seed {:X}", SEED + 3);
        page_gives(&book.key, &bytes, &typed, room, &answer, &name);
    }
}

/// Every length of the page's buffer: 7 below what the page needs, and the rest untouched from there on.
#[test]
fn every_room() {
    let mut random = Random::new(SEED + 4);
    for suite in SUITES {
        for units in [0, 1, 3] {
            let book = random_book(&mut random, suite, units, 30);
            let (bytes, _) = written(&book);
            let needed = ROW_LEN * units;
            for typed in [&b""[..], b"valves", &[0; 300]] {
                let page = of_book(&book, typed);
                assert_eq!(page.len(), needed);
                for room in 0..=needed + 13 {
                    let answer = match room < needed {
                        true => Err(7),
                        false => Ok(page.clone()),
                    };
                    let name = format!("suite {suite:?}, seed {:X}", SEED + 4);
                    page_gives(&book.key, &bytes, typed, room, &answer, &name);
                }
            }
        }
    }
}

/// A book without units has a page of no bytes, in a buffer of none, whatever is typed.
#[test]
fn no_units() {
    let mut random = Random::new(SEED + 5);
    for suite in SUITES {
        for book in books_of_each_kind(&mut random, suite) {
            let (bytes, _) = written(&book);
            for len in TYPED {
                let typed = random.some_bytes(len);
                pages(&book, &bytes, &typed, &format!("suite {suite:?}"));
                let mut none = [];
                let answer = raw::page(&book.key, &bytes, &typed, &mut none);
                assert_eq!(answer, Ok(0), "suite {suite:?}");
            }
        }
    }
}

/// Targets do not count: books that differ in these alone have the same page.
#[test]
fn other_targets() {
    let mut random = Random::new(SEED + 6);
    for suite in SUITES {
        let book = random_book(&mut random, suite, 5, 40);
        let typed = book.units[2].source.clone();
        let page = Ok(of_book(&book, &typed));
        for _ in 0..4 {
            let mut other = book.clone();
            for unit in &mut other.units {
                unit.target = match random.below(3) {
                    0 => typed.clone(),
                    1 => Vec::new(),
                    _ => random.some_bytes(4_096),
                };
            }
            let (bytes, _) = written(&other);
            let name = format!("suite {suite:?}, seed {:X}", SEED + 6);
            page_gives(&other.key, &bytes, &typed, 60, &page, &name);
        }
    }
}
