//! Books that checking accepts, with their unit counts and call totals: those of the vectors, those that
//! the library writes, those of the earlier writer, and the longest of these.

mod common;

use common::checking::{accepts, check_gives, checked};
use common::parts::{books_of_each_kind, random_book, some_book, written};
use common::writing::unit;
use reference::book::{Book, Kind};
use reference::cipher::SUITES;
use reference::random::Random;
use reference::vectors::{book_vectors, books_vectors};

const SEED: u64 = 0x4348_4543;

/// Has the book written and the library check it; both give the counts of the reference.
fn accepts_written(book: &Book, name: &str) -> Vec<u8> {
    let (bytes, writer) = written(book);
    assert_eq!(writer.units, book.units.len() as u64, "{name}");
    accepts(&book.key, &bytes, writer.units, writer.calls, name);
    bytes
}

#[test]
fn book_vectors_hold() {
    let mut accepted = 0;
    for v in book_vectors().into_iter().chain(books_vectors()) {
        let expected = v.answer.map(|(units, calls)| (units as u64, calls as u64));
        let answer = checked(&v.key, &v.book, &format!("line {}", v.line));
        assert_eq!(answer, expected, "reference: line {}", v.line);
        accepted += usize::from(answer.is_ok());
    }
    assert_eq!(accepted, 8 + 22);
}

/// Known value 8, as printed, and as the writer makes it.
#[test]
fn known_book() {
    let mut random = Random::new(SEED);
    for (kind, len) in [(Kind::Tag10, 84), (Kind::Tag14, 88)] {
        let book = Book::known(kind, random.bytes());
        let (bytes, _) = written(&book);
        assert_eq!(bytes.len(), len);
        accepts(&book.key, &bytes, 1, 7, "known value 8");
    }
}

/// The opening fields and a close, with book numbers at the ends of their range.
#[test]
fn empty_books() {
    let mut random = Random::new(SEED + 1);
    for suite in SUITES {
        for number in [0, 1, 0xFF, 0x0102_0304_0506_0708, 1 << 63, u64::MAX] {
            for mut book in books_of_each_kind(&mut random, suite) {
                book.number = number;
                let (bytes, _) = written(&book);
                assert_eq!(bytes.len(), 16 + book.kind.close_len());
                accepts(&book.key, &bytes, 0, 3, &format!("book {number}"));
            }
        }
    }
}

/// Every length of the source from 1 to 40 with every length of the target from 0 to 40.
#[test]
fn every_short_length() {
    let mut random = Random::new(SEED + 2);
    for s in 1..=40 {
        for mut book in books_of_each_kind(&mut random, SUITES[s % 8]) {
            book.units = (0..=40).map(|t| unit(&mut random, s, t)).collect();
            accepts_written(&book, &format!("source {s}, seed {:X}", SEED + 2));
        }
    }
}

/// Long segments, up to the longest.
#[test]
fn long_segments() {
    let mut random = Random::new(SEED + 3);
    for suite in SUITES {
        let mut book = some_book(&mut random, suite);
        for (s, t) in [(4_096, 4_096), (1, 4_096), (4_096, 0), (256, 255)] {
            book.units.push(unit(&mut random, s, t));
        }
        accepts_written(&book, &format!("suite {suite:?}, seed {:X}", SEED + 3));
    }
}

/// Books of some hundred units, with unit numbers of more than a byte.
#[test]
fn some_hundred_units() {
    let mut random = Random::new(SEED + 4);
    for suite in SUITES {
        let book = random_book(&mut random, suite, 300, 12);
        accepts_written(&book, &format!("suite {suite:?}, seed {:X}", SEED + 4));
    }
}

#[test]
fn random_books() {
    let mut random = Random::new(SEED + 5);
    for suite in SUITES {
        for case in 0..40 {
            let units = random.below(9);
            let book = random_book(&mut random, suite, units, 60);
            accepts_written(&book, &format!("case {case}, seed {:X}", SEED + 5));
        }
    }
}

/// A book of many units of some 200 bytes: the counts are those of its writer.
#[test]
fn sixty_thousand_units() {
    let mut random = Random::new(SEED + 6);
    let mut book = Book::random(&mut random, (1, 6));
    for _ in 0..60_000 {
        let (s, t) = (80 + random.below(41), 80 + random.below(41));
        book.units.push(unit(&mut random, s, t));
    }
    let (bytes, writer) = written(&book);
    let answer = Ok((60_000, writer.calls));
    check_gives(&book.key, &bytes, answer, "60,000 units");
    // each unit has a header of two blocks and a tag
    assert!(writer.calls > 60_000 * (3 + 160 / 16));
}

/// The longest old book; and one unit more, which has its number in two bytes, where the count has not, nor has
/// the unit behind it: "Refusals 9 and 13 move to the new limit, also for old books where it cannot occur."
#[test]
fn a_full_book() {
    let mut random = Random::new(SEED + 7);
    let mut book = Book::random(&mut random, (1, 6));
    book.kind = Kind::Tag10;
    book.units = (0..65_535).map(|_| unit(&mut random, 1, 0)).collect();
    let (mut bytes, writer) = written(&book);
    let calls = 4 * 65_535 + 3;
    assert_eq!(writer.calls, calls);
    check_gives(&book.key, &bytes, Ok((65_535, calls)), "65,535 units");

    bytes.truncate(bytes.len() - 24);
    let more = unit(&mut random, 1, 0);
    bytes.extend(book.unit(book.kind, 65_535, &more).0);
    check_gives(&book.key, &bytes, Err(14), "no close");
    for number in [0, 1, 65_535] {
        let close = book.close(book.kind, number).0;
        let closed = [&bytes[..], &close].concat();
        check_gives(&book.key, &closed, Err(15), "65,536 units");
        let unit = book.unit(book.kind, number, &more).0;
        let longer = [&bytes[..], &unit].concat();
        check_gives(&book.key, &longer, Err(15), "65,537 units");
    }
}

/// A wide book with more units than two bytes count; and a unit, or a close, whose number has the same low bytes.
#[test]
fn past_65_535_units() {
    let mut random = Random::new(SEED + 8);
    let mut book = Book::random(&mut random, (1, 6));
    book.units = (0..65_540).map(|_| unit(&mut random, 1, 0)).collect();
    let (mut bytes, writer) = written(&book);
    let calls = 4 * 65_540 + 3;
    assert_eq!((bytes.len(), writer.calls), (16 + 65_540 * 36 + 26, calls));
    check_gives(&book.key, &bytes, Ok((65_540, calls)), "65,540 units");

    bytes.truncate(bytes.len() - 26);
    let more = &unit(&mut random, 1, 0);
    for (number, expected) in [(4, Err(15)), (65_540, Ok((65_541, calls + 4)))] {
        let unit = book.unit(book.kind, number, more).0;
        let close = book.close(book.kind, 65_541).0;
        let longer = [&bytes[..], &unit, &close].concat();
        check_gives(&book.key, &longer, expected, "65,541 units");
    }
    let closed = [&bytes[..], &book.close(book.kind, 4).0].concat();
    check_gives(
        &book.key,
        &closed,
        Err(15),
        "a count with the same low bytes",
    );
}
