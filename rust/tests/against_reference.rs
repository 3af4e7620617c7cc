//! Books against the second implementation, and against those of another one.

mod common;

use common::{assert_unit, book, lengths, of_both_kinds, written};
use reference::book as second;
use reference::random::Random;
use reference::vectors::{book_vectors, books_vectors};
use sealed_book::{Book, Suite};

const SEED: u64 = 0x5345_434F;

/// The units of a checked book are those of the second implementation's.
fn assert_units<B: AsRef<[u8]>>(book: &Book<B>, second: &second::Book, name: &str) {
    assert_eq!(book.len(), second.units.len() as u64, "{name}");
    for (k, (unit, added)) in book.iter().zip(&second.units).enumerate() {
        let name = format!("unit {k}, {name}");
        assert_unit(&unit.unwrap(), k, added, &name);
        assert_unit(&book.fetch(k as u64).unwrap(), k, added, &name);
    }
}

/// The writer leaves what the second implementation lays out, which takes it apart again; the books of both kinds
/// that the second one lays out are checked and read.
#[test]
fn same_books() {
    let mut random = Random::new(SEED);
    for suite in Suite::ALL {
        for (count, end) in [(0, 2), (1, 40), (12, 60)] {
            let mut lengths = lengths(&mut random, count, end);
            if count == 12 {
                lengths.extend([(4_096, 4_096), (300, 1)]);
            }
            let given = book(&mut random, suite, &lengths);
            let name = format!("{count} units, {suite}, seed {SEED:X}");
            let (laid_out, calls) = given.laid_out();
            let bytes = written(&given);
            assert!(bytes == laid_out, "{name}");
            let apart = second::Book::taken_apart(&given.key, &bytes);
            assert!(apart.as_ref() == Some(&given), "{name}");

            for given in of_both_kinds(&given) {
                let (laid_out, _) = given.laid_out();
                let checked = Book::check(&given.key, &laid_out).unwrap();
                assert_eq!(checked.calls(), calls as u64, "{name}");
                assert_eq!((checked.number(), checked.suite()), (given.number, suite));
                assert_units(&checked, &given, &name);
            }
        }
    }
}

/// The books of another implementation: accepted with their counts, or refused.
#[test]
fn book_vectors_hold() {
    let mut accepted = 0;
    for v in book_vectors().into_iter().chain(books_vectors()) {
        // a key of another length has no book
        let Ok(key) = <&[u8; 16]>::try_from(&v.key[..]) else {
            assert_eq!(v.answer, Err(2));
            continue;
        };
        let name = format!("line {}", v.line);
        let checked = Book::check(key, &v.book);
        let answer = checked.as_ref().map(|book| (book.len(), book.calls()));
        let expected = v.answer.map(|(units, calls)| (units as u64, calls as u64));
        assert_eq!(
            answer.map_err(|refusal| refusal.number()),
            expected,
            "{name}"
        );
        if let Ok(book) = checked {
            let second = second::Book::taken_apart(key, &v.book).expect("accepted");
            assert_units(&book, &second, &name);
            accepted += 1;
        }
    }
    assert_eq!(accepted, 8 + 22);
}
