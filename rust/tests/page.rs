//! Scores, and pages of books that were checked, against the second implementation.

mod common;

use std::cell::Cell;

use common::{book, lengths, of_both_kinds, written};
use reference::book as second;
use reference::page::page;
use reference::random::Random;
use reference::vectors::page_vectors;
use sealed_book::Refusal::{FieldMalformed, OutputTooShort, TagDiffers};
use sealed_book::{score, Book, Suite};

const SEED: u64 = 0x5041_4752;

/// Sources that share trigrams, among others: each is a sentence of a few words.
fn with_words(random: &mut Random, mut book: second::Book) -> second::Book {
    let words = ["the valve", "valves ", "close", " the pump", "a", "Öl", "."];
    for unit in &mut book.units {
        let count = 1 + random.below(6);
        unit.source = (0..count)
            .flat_map(|_| random.one_of(&words).bytes())
            .collect();
    }
    book
}

/// The page as text, which the second implementation makes.
fn expected(given: &second::Book, bytes: &[u8], typed: &str) -> String {
    let room = 12 * given.units.len();
    let page = page(&given.key, bytes, typed.as_bytes(), room);
    String::from_utf8(page.expect("a whole book")).expect("text")
}

#[test]
fn as_the_second_implementation() {
    let mut random = Random::new(SEED);
    for suite in Suite::ALL {
        for count in [0, 1, 9, 40] {
            let lengths = lengths(&mut random, count, 40);
            let given = book(&mut random, suite, &lengths);
            let given = with_words(&mut random, given);
            let name = format!("{count} units, {suite}, seed {SEED:X}");
            for given in of_both_kinds(&given) {
                assert_pages(&given, &name);
            }
        }
    }
}

/// The pages of this book, with several sentences typed.
fn assert_pages(given: &second::Book, name: &str) {
    let bytes = written(given);
    let book = Book::check(&given.key, &bytes).unwrap();
    for typed in ["", "va", "valves", "Close the valve.", "Öl"] {
        let expected = expected(given, &bytes, typed);
        assert_eq!(book.page(typed).as_ref(), Ok(&expected), "{name}");
        // whatever lends bytes can be typed
        let (text, bytes) = (typed.to_string(), typed.as_bytes().to_vec());
        assert_eq!(book.page(&bytes[..]).as_ref(), Ok(&expected), "{name}");
        assert_eq!(book.page(text).as_ref(), Ok(&expected), "{name}");
        assert_eq!(book.page(bytes).as_ref(), Ok(&expected), "{name}");
        for (row, unit) in expected.lines().zip(&given.units) {
            let score = score(&unit.source, typed).to_string();
            assert_eq!(row[5..].trim_start(), score, "{name}");
            assert_eq!(row[..5].trim_start(), unit.source.len().to_string());
        }
        assert_eq!(expected.lines().count(), given.units.len(), "{name}");
    }
}

#[test]
fn page_vectors_hold() {
    let mut made = 0;
    for v in page_vectors() {
        let key = v.key[..].try_into().expect("16 bytes");
        let name = format!("line {}", v.line);
        match (Book::check(key, &v.book), v.answer) {
            (Ok(book), Ok(expected)) => {
                let page = book.page(&v.typed).unwrap();
                assert_eq!(page.as_bytes(), expected, "{name}");
                made += 1;
            }
            // its own buffer is never short
            (Ok(book), Err(7)) => {
                assert_eq!(book.page(&v.typed).unwrap().len() as u64, 12 * book.len());
            }
            (checked, answer) => {
                let refusal = checked.expect_err("refused").number();
                assert_eq!(Err(refusal), answer, "{name}");
            }
        }
    }
    assert_eq!(made, 30);
}

/// Lends the one of its strings of bytes that is named.
struct Changing<'n> {
    named: &'n Cell<usize>,
    bytes: Vec<Vec<u8>>,
}

impl AsRef<[u8]> for Changing<'_> {
    fn as_ref(&self) -> &[u8] {
        &self.bytes[self.named.get()]
    }
}

/// A page of bytes that are no longer those that were checked is that of the book that they are, or a refusal.
#[test]
fn bytes_that_change() {
    let mut random = Random::new(SEED + 1);
    let given = book(&mut random, Suite::SCREAM_8, &[(5, 1), (9, 0), (30, 3)]);
    let with_units = |units: &[(usize, usize)], random: &mut Random| second::Book {
        units: book(random, Suite::SCREAM_8, units).units,
        ..given.clone()
    };
    let [fewer, more] = [
        with_units(&[(7, 7)], &mut random),
        with_units(&[(1, 1); 4], &mut random),
    ];
    let mut changed = written(&given);
    *changed.last_mut().unwrap() ^= 1;
    let [first, then, longer] = [&given, &fewer, &more].map(written);
    let answers = [
        Ok(expected(&given, &first, "valves")),
        Ok(expected(&fewer, &then, "valves")),
        Err(OutputTooShort),
        Err(TagDiffers),
        Err(FieldMalformed),
    ];
    let named = Cell::new(0);
    let changing = Changing {
        named: &named,
        bytes: vec![first, then, longer, changed, Vec::new()],
    };
    let book = Book::check(&given.key, changing).unwrap();
    for (i, answer) in answers.into_iter().enumerate() {
        named.set(i);
        assert_eq!(book.page("valves"), answer, "{i}");
    }
}
