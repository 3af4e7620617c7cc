//! The baseline's writer in C against the reference, so that what is measured is the writing of books.

use bench::baseline;
use reference::book::{Book, Kind};
use reference::cipher::SUITES;
use reference::random::Random;
use reference::vectors::{book_vectors, books_vectors};
use reference::writer::{start, Writer};

const SEED: u64 = 0x424F_4F4B;

/// The reference's writer as the baseline's.
fn in_c(writer: &Writer) -> baseline::Writer {
    baseline::Writer {
        number: writer.number,
        place: writer.place,
        units: writer.units,
        calls: writer.calls,
        key: writer.key,
        cipher: writer.cipher,
        steps: writer.steps,
        open: u8::from(!writer.closed),
    }
}

/// A book written again, in a buffer that has room for it and no more; its bytes, and the writer.
fn written(book: &Book, len: usize) -> (Vec<u8>, baseline::Writer) {
    let mut buffer = vec![0; len];
    let (cipher, steps) = (book.cipher, book.steps);
    let (mut writer, answer) = baseline::start(cipher, steps, &book.key, book.number, &mut buffer);
    assert_eq!(answer, Ok(()));
    for unit in &book.units {
        let (source, target) = (&unit.source, &unit.target);
        let answer = writer.add_of(book.kind, &mut buffer, &unit.from, &unit.to, source, target);
        assert_eq!(answer, Ok(()));
    }
    assert_eq!(writer.close_of(book.kind, &mut buffer), Ok(()));
    (buffer, writer)
}

/// Known value 8: 84 bytes as printed, 88 as the writer makes it, 7 calls.
#[test]
fn known_book() {
    for (kind, len) in [(Kind::Tag10, 84), (Kind::Tag14, 88)] {
        let book = Book::known(kind, [9; 16]);
        let (bytes, writer) = written(&book, len);
        assert_eq!(bytes, book.laid_out().0);
        assert_eq!((writer.place, writer.calls), (len as u64, 7));
    }
}

/// The accepted books of book.txt and books.txt, taken apart by the reference and written again.
#[test]
fn book_vectors_are_written_again() {
    let mut books = [0; 2];
    for v in book_vectors().into_iter().chain(books_vectors()) {
        let Ok((units, calls)) = v.answer else {
            continue;
        };
        let key = v.key[..].try_into().expect("an accepted key");
        let book = Book::taken_apart(&key, &v.book).expect("a book");
        let (bytes, writer) = written(&book, v.book.len());
        assert_eq!(bytes, v.book, "line {}", v.line);
        assert_eq!(writer.units, units as u64, "line {}", v.line);
        assert_eq!(writer.calls, calls as u64, "line {}", v.line);
        books[Kind::ALL
            .iter()
            .take_while(|kind| **kind != book.kind)
            .count()] += 1;
    }
    assert_eq!(books, [8 + 11, 11]);
}

/// Every code with itself, in a book of each kind: as the reference lays it out, and read again.
#[test]
fn equal_codes() {
    for kind in Kind::ALL {
        let mut book = Book::known(kind, [9; 16]);
        for code in (0..676).map(|i| [b'a' + (i / 26) as u8, b'a' + (i % 26) as u8]) {
            (book.units[0].from, book.units[0].to) = (code, code);
            let (bytes, calls) = book.laid_out();
            let (in_c, writer) = written(&book, bytes.len());
            assert_eq!(in_c, bytes, "{kind:?}, {code:?}");
            assert_eq!(writer.calls, calls as u64, "{kind:?}, {code:?}");
            let answer = baseline::check(&book.key, &bytes);
            assert_eq!(answer, Ok((1, calls as u64)), "{kind:?}, {code:?}");
        }
    }
}

/// Starts, some of them refused.
#[test]
fn starts_are_those_of_the_reference() {
    let mut random = Random::new(SEED);
    let mut answers = [0; 14];
    for case in 0..2_000 {
        let name = format!("seed {SEED:X}, case {case}");
        let (cipher, steps) = match random.below(4) {
            0 => random.one_of(&[(0, 6), (1, 14), (2, 6), (3, 8)]),
            _ => random.one_of(&SUITES),
        };
        let key_len = random.one_of(&[0, 15, 16, 16, 16, 16, 17]);
        let key = random.some_bytes(key_len);
        let number = random.number();
        let len = 10 + random.below(20);
        let mut buffer = random.some_bytes(len);
        let mut expected = buffer.clone();
        let (writer, answer) = start(cipher, steps, &key, number, &mut expected);
        let got = baseline::start(cipher, steps, &key, number, &mut buffer);
        assert_eq!(got, (in_c(&writer), answer), "{name}");
        assert_eq!(buffer, expected, "{name}");
        answers[answer.err().unwrap_or(0) as usize] += 1;
    }
    for number in [0, 1, 2, 7] {
        assert!(answers[number] > 20, "{answers:?}");
    }
}

/// Adds and closes of any writers, some of them refused: of the writer, and of those of each kind. Codes that are the
/// same are added as all others.
#[test]
fn adds_and_closes_are_those_of_the_reference() {
    let mut random = Random::new(SEED + 1);
    let (mut answers, mut equal) = ([[0; 14]; 3], [0; 3]);
    for case in 0..9_000 {
        let name = format!("seed {:X}, case {case}", SEED + 1);
        let kind = [None, Some(Kind::Tag10), Some(Kind::Tag14)][case % 3];
        let (cipher, steps) = match random.below(16) {
            0 => (1, 14),
            _ => random.one_of(&SUITES),
        };
        let units = match random.below(3) {
            0 => {
                let most = kind.unwrap_or(Kind::NEWEST).most_units() as u64;
                let other = random.one_of(&[65_535, 65_536, 65_537, u64::MAX]);
                random.one_of(&[most - 2, most - 1, most, most, most + 1, other])
            }
            _ => random.below(600) as u64,
        };
        let bound = units.wrapping_add(1).wrapping_mul(1_024);
        let calls = match random.below(8) {
            0 => random.one_of(&[bound, bound.wrapping_add(1), u64::MAX]),
            _ => random.below(1_024) as u64,
        };
        let (s, t) = match random.below(10) {
            0 => (0, random.below(20)),
            1 => (4_096 + random.below(2), 4_096 + random.below(2)),
            _ => (1 + random.below(60), random.below(60)),
        };
        let place = 12 + random.below(60);
        let len = place + s + t + random.below(60);
        let writer = Writer {
            cipher,
            steps,
            key: random.bytes(),
            number: random.number(),
            place: match random.below(20) {
                0 => random.one_of(&[0, 15, len as u64 + 1, u64::MAX]),
                _ => place as u64,
            },
            units,
            calls,
            closed: random.below(8) == 0,
        };
        let mut codes = *b"ende";
        if random.below(6) == 0 {
            let byte = random.one_of(b"A`{ends");
            codes[random.below(4)] = byte;
        }
        let (from, to) = ([codes[0], codes[1]], [codes[2], codes[3]]);
        let to = if random.below(5) == 0 { from } else { to };
        let (source, target) = (random.some_bytes(s), random.some_bytes(t));

        let mut buffer = random.some_bytes(len);
        let mut expected = buffer.clone();
        let mut got = in_c(&writer);
        let closes = random.below(4) == 0;
        let ((after, answer), given) = match (kind, closes) {
            (None, true) => (writer.close(&mut expected), got.close(&mut buffer)),
            (None, false) => (
                writer.add(&mut expected, from, to, &source, &target),
                got.add(&mut buffer, &from, &to, &source, &target),
            ),
            (Some(kind), true) => (
                writer.close_of(kind, &mut expected),
                got.close_of(kind, &mut buffer),
            ),
            (Some(kind), false) => (
                writer.add_of(kind, &mut expected, from, to, &source, &target),
                got.add_of(kind, &mut buffer, &from, &to, &source, &target),
            ),
        };
        assert_eq!(given, answer, "{name}");
        assert_eq!(got, in_c(&after), "{name}");
        assert_eq!(buffer, expected, "{name}");
        answers[case % 3][answer.err().unwrap_or(0) as usize] += 1;
        equal[case % 3] += usize::from(!closes && from == to && answer.is_ok());
    }
    for number in [0, 7, 9, 10, 11, 12, 13] {
        assert!(answers.iter().all(|of| of[number] > 50), "{answers:?}");
    }
    assert!(equal.iter().all(|count| *count > 50), "{equal:?}");
}
