//! Units that fetching hands out: those of the vectors' books, and of books of each kind; and numbers that a book
//! has no unit of. Those of long books are in kinds.rs.

mod common;

use common::checking::check_gives;
use common::fetching::{fetch_gives, fetched, fetches, of, of_book, refuses, Which::Walked, ROOM};
use common::parts::{books_of_each_kind, random_book, some_book, written};
use common::writing::unit;
use reference::book::{Book, Kind};
use reference::cipher::SUITES;
use reference::random::Random;
use reference::vectors::{book_vectors, books_vectors};
use sealed_book::{raw, Refusal};

const SEED: u64 = 0x4645_5443;

/// Numbers that no short book has a unit of, for a book with so many units.
fn past(units: u64) -> [u64; 9] {
    let wide = 1 << 16;
    [
        units,
        units + 1,
        wide - 1,
        wide,
        wide + 1,
        1 << 32,
        (1 << 32) + 1,
        1 << 63,
        u64::MAX,
    ]
}

/// Fetches every unit of the book, and some that it has not.
fn fetches_all(book: &Book, bytes: &[u8], name: &str) {
    for (k, unit) in book.units.iter().enumerate() {
        fetches(&book.key, bytes, Walked(k as u64), unit, name);
    }
    for k in past(book.units.len() as u64) {
        refuses(&book.key, bytes, Walked(k), 16, name);
    }
}

/// The units are those that the books say when they are taken apart; of the books that checking refuses,
/// the units before the refusal are handed out.
#[test]
fn book_vectors_hold() {
    let (mut units, mut without) = (0, 0);
    for v in book_vectors().into_iter().chain(books_vectors()) {
        let name = format!("line {}", v.line);
        let key = v.key[..].try_into().expect("16 bytes");
        if let Ok((count, _)) = v.answer {
            let book = Book::taken_apart(&key, &v.book).expect("a book");
            assert_eq!(book.units.len(), count, "{name}");
            fetches_all(&book, &v.book, &name);
            units += count;
        } else {
            let first = (0..).find_map(|k| fetched(&key, &v.book, Walked(k), ROOM, &name).err());
            assert_eq!(first, v.answer.err(), "{name}");
            for k in past(3) {
                let answer = fetched(&key, &v.book, Walked(k), 0, &name);
                assert!(answer.is_err(), "{name}");
            }
            without += 1;
        }
    }
    assert_eq!((units, without), (14 + 37, 72 + 64));
}

/// Known value 8, as printed, and as the writer makes it.
#[test]
fn known_book() {
    let mut random = Random::new(SEED);
    for kind in Kind::ALL {
        let book = Book::known(kind, random.bytes());
        let (bytes, _) = written(&book);
        fetches_all(&book, &bytes, "known value 8");
        let mut out = [b'.'; 13];
        let unit = raw::fetch(&book.key, &bytes, 0, &mut out);
        let unit = unit.expect("unit 0");
        assert_eq!((unit.source, unit.target), (5, 6));
        assert_eq!(&out, b"valveVentil..");
        let none = raw::fetch(&book.key, &bytes, 1, &mut out);
        assert_eq!(none, Err(Refusal::NoSuchUnit));
        assert_eq!(&out, b"valveVentil..");
    }
}

/// Every length of the source from 1 to 18 with every length of the target from 0 to 18.
#[test]
fn every_short_length() {
    let mut random = Random::new(SEED + 1);
    for s in 1..=18 {
        for mut book in books_of_each_kind(&mut random, SUITES[s % 8]) {
            book.units = (0..=18).map(|t| unit(&mut random, s, t)).collect();
            let (bytes, _) = written(&book);
            fetches_all(&book, &bytes, &format!("source {s}, seed {:X}", SEED + 1));
        }
    }
}

/// Every length of the output up to some bytes more than the unit takes.
#[test]
fn every_output_length() {
    let mut random = Random::new(SEED + 2);
    for suite in SUITES {
        let book = random_book(&mut random, suite, 3, 30);
        let (bytes, _) = written(&book);
        for (k, unit) in book.units.iter().enumerate() {
            let len = unit.source.len() + unit.target.len();
            for out_len in 0..len + 5 {
                let answer = match out_len < len {
                    true => Err(7),
                    false => Ok(of(unit)),
                };
                let name = format!("suite {suite:?}, seed {:X}", SEED + 2);
                fetch_gives(&book.key, &bytes, Walked(k as u64), out_len, &answer, &name);
            }
        }
    }
}

/// Long segments, up to the longest.
#[test]
fn long_segments() {
    let mut random = Random::new(SEED + 3);
    for suite in SUITES {
        let mut book = some_book(&mut random, suite);
        for (s, t) in [(4_096, 4_096), (1, 4_096), (4_096, 0), (256, 255)] {
            book.units.push(unit(&mut random, s, t));
        }
        let (bytes, _) = written(&book);
        let name = format!("suite {suite:?}, seed {:X}", SEED + 3);
        for (k, unit) in book.units.iter().enumerate() {
            fetches(&book.key, &bytes, Walked(k as u64), unit, &name);
        }
    }
}

/// Books of some hundred units, with unit numbers of more than a byte.
#[test]
fn some_hundred_units() {
    let mut random = Random::new(SEED + 4);
    for suite in [(1, 8), (2, 14)] {
        let book = random_book(&mut random, suite, 300, 12);
        let (bytes, _) = written(&book);
        let name = format!("suite {suite:?}, seed {:X}", SEED + 4);
        for k in 0..310 {
            let answer = of_book(&book, k);
            fetch_gives(&book.key, &bytes, Walked(k), ROOM, &answer, &name);
        }
        fetches_some(&book, &bytes, &[0, 1, 255, 256, 257, 299], &name);
    }
}

/// Fetches some units of the book as the reference does.
fn fetches_some(book: &Book, bytes: &[u8], units: &[usize], name: &str) {
    for &k in units {
        let unit = &book.units[k];
        fetches(&book.key, bytes, Walked(k as u64), unit, name);
    }
}

#[test]
fn random_books() {
    let mut random = Random::new(SEED + 5);
    for suite in SUITES {
        for case in 0..6 {
            let units = random.below(7);
            let book = random_book(&mut random, suite, units, 60);
            let (bytes, _) = written(&book);
            fetches_all(&book, &bytes, &format!("case {case}, seed {:X}", SEED + 5));
        }
    }
}

/// A walk past long units, to the places that their lengths give.
#[test]
fn behind_long_units() {
    let mut random = Random::new(SEED + 7);
    for mut book in books_of_each_kind(&mut random, (2, 8)) {
        for i in 0..24 {
            let (s, t) = [(4_096, 4_096), (4_096, 4_095), (250, 3), (1, 0)][i % 4];
            book.units.push(unit(&mut random, s, t));
        }
        let (bytes, _) = written(&book);
        for k in 0..26 {
            let answer = of_book(&book, k);
            fetch_gives(&book.key, &bytes, Walked(k), ROOM, &answer, "long units");
        }
    }
}

/// The library's units, one after the other, are those that its checking counts.
#[test]
fn as_many_as_checking_counts() {
    let mut random = Random::new(SEED + 8);
    for suite in SUITES {
        let book = random_book(&mut random, suite, 9, 40);
        let (bytes, writer) = written(&book);
        let mut out = [0; ROOM];
        let mut units = 0;
        let end = loop {
            match raw::fetch(&book.key, &bytes, units, &mut out) {
                Ok(_) => units += 1,
                Err(end) => break end,
            }
        };
        assert_eq!(end, Refusal::NoSuchUnit, "suite {suite:?}");
        check_gives(&book.key, &bytes, Ok((units, writer.calls)), "counted");
    }
}
