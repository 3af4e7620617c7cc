//! Books for the tests. What they hold is kept in the types of the second implementation, which lays out those
//! of the older kind, and no others.

// Each test file uses a part of this.
#![allow(dead_code)]

use reference::book::{self as second, Kind};
use reference::random::Random;
use sealed_book::{Refusal, Suite, Unit, Writer};

/// A unit with random segments of these lengths, and two languages, one time in six the same.
pub fn unit(random: &mut Random, s: usize, t: usize) -> second::Unit {
    let codes = [*b"en", *b"de", *b"fr", *b"ja", *b"zz", *b"aa"];
    let [from, to] = [(); 2].map(|()| random.below(6));
    second::Unit {
        from: codes[from],
        to: codes[to],
        source: random.some_bytes(s),
        target: random.some_bytes(t),
    }
}

/// A book with a random key and number, and units of these lengths.
pub fn book(random: &mut Random, suite: Suite, lengths: &[(usize, usize)]) -> second::Book {
    let [cipher, steps] = suite.to_bytes();
    let mut book = second::Book::random(random, (cipher, steps));
    book.units = lengths.iter().map(|&(s, t)| unit(random, s, t)).collect();
    book
}

/// So many lengths of source and target, the source shorter than `end` and the target too.
pub fn lengths(random: &mut Random, count: usize, end: usize) -> Vec<(usize, usize)> {
    let mut pair = || (1 + random.below(end - 1), random.below(end));
    (0..count).map(|_| pair()).collect()
}

/// The book's suite.
pub fn suite(book: &second::Book) -> Suite {
    Suite::from_bytes([book.cipher, book.steps]).expect("a listed suite")
}

/// A writer that has started this book.
pub fn started(book: &second::Book) -> Writer {
    Writer::start(suite(book), &book.key, book.number).expect("a listed suite")
}

/// Adds the unit.
pub fn add(writer: &mut Writer, unit: &second::Unit) -> Result<u64, Refusal> {
    let [from, to] = [unit.from, unit.to].map(|code| String::from_utf8(code.to_vec()).unwrap());
    writer.add(&from, &to, &unit.source, &unit.target)
}

/// The book and one of the older kind with the same units.
pub fn of_both_kinds(book: &second::Book) -> [second::Book; 2] {
    let older = second::Book {
        kind: Kind::Tag10,
        ..book.clone()
    };
    [book.clone(), older]
}

/// The book as the writer leaves it, or as the earlier writer left it, if it is of the older kind.
pub fn written(book: &second::Book) -> Vec<u8> {
    if book.kind != Kind::NEWEST {
        return book.laid_out().0;
    }
    let mut writer = started(book);
    for (k, unit) in book.units.iter().enumerate() {
        assert_eq!(add(&mut writer, unit), Ok(k as u64));
    }
    writer.close().expect("an open writer").0
}

/// A fetched unit is the one that was added as unit `k`.
pub fn assert_unit(fetched: &Unit, k: usize, added: &second::Unit, name: &str) {
    assert_eq!(fetched.number(), k as u64, "{name}");
    assert_eq!(
        (
            fetched.source_language().as_bytes(),
            fetched.target_language().as_bytes()
        ),
        (&added.from[..], &added.to[..]),
        "{name}"
    );
    assert!(fetched.source == added.source, "source, {name}");
    assert!(fetched.target == added.target, "target, {name}");
}
