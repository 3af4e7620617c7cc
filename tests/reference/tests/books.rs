//! The books of book.txt and books.txt: checked; the accepted ones taken apart and laid out again, at once and
//! step by step; and their units fetched. The books of fetch.txt: one unit each, and its ciphertext part. The
//! books of page.txt: their pages.

use reference::book::{Book, Kind};
use reference::check::check;
use reference::cipher::SUITES;
use reference::fetch::{ciphertext, fetch};
use reference::page::page;
use reference::sealing::call_count;
use reference::vectors::{book_vectors, books_vectors, fetch_vectors, page_vectors, BookVector};
use reference::writer::start;

/// The lines of both files.
fn all_books() -> Vec<BookVector> {
    let mut vectors = book_vectors();
    vectors.extend(books_vectors());
    vectors
}

#[test]
fn book_vectors_hold() {
    assert_eq!((book_vectors().len(), books_vectors().len()), (80, 86));
    for v in all_books() {
        let expected = v.answer.map(|(units, calls)| (units as u64, calls as u64));
        assert_eq!(check(&v.key, &v.book), expected, "line {}", v.line);
        let key = v.key[..].try_into().expect("16 bytes");
        let book = Book::taken_apart(&key, &v.book);
        assert_eq!(book.is_some(), expected.is_ok(), "line {}", v.line);
    }
}

#[test]
fn accepted_books_are_laid_out_again() {
    let mut suites = Vec::new();
    let mut kinds = Vec::new();
    for v in all_books() {
        let Ok((units, calls)) = v.answer else {
            continue;
        };
        let key = v.key[..].try_into().expect("an accepted key");
        let book = Book::taken_apart(&key, &v.book).expect("a book");
        let kind = book.kind;
        assert_eq!(book.units.len(), units, "line {}", v.line);
        let again = book.laid_out();
        assert_eq!(again, (v.book.clone(), calls), "line {}", v.line);

        let mut buffer = vec![0; v.book.len()];
        let (mut writer, mut answer) =
            start(book.cipher, book.steps, &key, book.number, &mut buffer);
        assert_eq!(answer, Ok(()), "line {}", v.line);
        for unit in &book.units {
            let (source, target) = (&unit.source, &unit.target);
            (writer, answer) = writer.add_of(kind, &mut buffer, unit.from, unit.to, source, target);
            assert_eq!(answer, Ok(()), "line {}", v.line);
        }
        (writer, answer) = writer.close_of(kind, &mut buffer);
        assert_eq!(answer, Ok(()), "line {}", v.line);
        assert_eq!(buffer, v.book, "line {}", v.line);
        assert_eq!(writer.calls, calls as u64, "line {}", v.line);
        suites.push((book.cipher, book.steps));
        kinds.push(kind);
    }
    assert_eq!(suites[..8], SUITES);
    let count = |kind| kinds.iter().filter(|other| **other == kind).count();
    assert_eq!(Kind::ALL.map(count), [8 + 11, 11]);
}

/// The units of an accepted book are those that it is taken apart into; the first refusal of fetching one
/// unit after the other is checking's, with 16 at the end of an accepted book.
#[test]
fn units_are_fetched() {
    for v in all_books() {
        let key = v.key[..].try_into().expect("16 bytes");
        let mut units = Vec::new();
        let refusal = loop {
            match fetch(&v.key, &v.book, units.len() as u64, 8_192) {
                Ok(unit) => units.push((unit.source, unit.target)),
                Err(number) => break number,
            }
        };
        assert_eq!(refusal, v.answer.err().unwrap_or(16), "line {}", v.line);
        if let Some(book) = Book::taken_apart(&key, &v.book) {
            let expected = book.units.into_iter();
            let expected: Vec<_> = expected.map(|unit| (unit.source, unit.target)).collect();
            assert_eq!(units, expected, "line {}", v.line);
        }
    }
}

/// One unit each, and where its ciphertext stands. The calls are those of the unit's header, 25 bytes in an old
/// book and 27 in a wide one, and text.
#[test]
fn fetch_vectors_hold() {
    let vectors = fetch_vectors();
    assert_eq!(vectors.len(), 80);
    let (mut fetched, mut refused) = (Vec::new(), [0; 17]);
    for v in vectors {
        let answer = fetch(&v.key, &v.book, v.k, v.room);
        assert_eq!(answer, v.answer, "line {}", v.line);
        let part = ciphertext(&v.book, v.k);
        assert_eq!(part, v.ciphertext, "line {}", v.line);
        match answer {
            Ok(_) => {
                let kind = Kind::of(&v.book).expect("a book");
                let header = [25, 27][usize::from(kind == Kind::Tag14)];
                assert_eq!(call_count(header, part.len()), v.calls, "line {}", v.line);
                fetched.push(kind);
            }
            Err(number) => refused[number as usize] += 1,
        }
    }
    let count = |kind| fetched.iter().filter(|other| **other == kind).count();
    assert_eq!(Kind::ALL.map(count), [8, 5]);
    let numbers = [7, 8, 11, 14, 15, 16].map(|number| refused[number]);
    assert_eq!(numbers, [8, 4, 1, 22, 1, 31]);
}

/// Pages and refusals, of which some are for the page's room alone.
#[test]
fn page_vectors_hold() {
    let vectors = page_vectors();
    assert_eq!(vectors.len(), 60);
    let (mut rows, mut refused) = (0, [0; 17]);
    for v in vectors {
        let answer = page(&v.key, &v.book, &v.typed, v.room);
        assert_eq!(answer, v.answer, "line {}", v.line);
        match answer {
            Ok(page) => {
                assert_eq!(page.len() % 12, 0, "line {}", v.line);
                rows += page.len() / 12;
            }
            Err(number) => {
                let roomy = page(&v.key, &v.book, &v.typed, v.room + 1_000);
                assert_eq!(roomy.err().unwrap_or(7), number, "line {}", v.line);
                refused[number as usize] += 1;
            }
        }
    }
    assert_eq!(rows, 53);
    let numbers = [7, 8, 14, 15].map(|number| refused[number]);
    assert_eq!(numbers, [11, 6, 11, 2]);
}
