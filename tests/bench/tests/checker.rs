//! The baseline's checker in C against the reference, so that what is measured is the checking of books.

use bench::baseline;
use reference::book::{Book, Kind, Unit};
use reference::check::check;
use reference::cipher::SUITES;
use reference::random::Random;
use reference::vectors::{book_vectors, books_vectors};

const SEED: u64 = 0x4342_4F4F;

#[test]
fn book_vectors_hold() {
    assert_eq!((book_vectors().len(), books_vectors().len()), (80, 86));
    for v in book_vectors().into_iter().chain(books_vectors()) {
        let expected = v.answer.map(|(units, calls)| (units as u64, calls as u64));
        let answer = baseline::check(&v.key, &v.book);
        assert_eq!(answer, expected, "line {}", v.line);
    }
}

/// Books of both kinds and of any units, allowed or not, some of them changed. Codes that are the same are allowed.
#[test]
fn checks_are_those_of_the_reference() {
    let mut random = Random::new(SEED);
    let (mut answers, mut equal) = ([[0; 17]; 2], [0; 2]);
    for case in 0..8_000 {
        let name = format!("seed {SEED:X}, case {case}");
        let suite = random.one_of(&SUITES);
        let mut book = Book::random(&mut random, suite);
        book.kind = Kind::ALL[case % 2];
        for _ in 0..random.below(3) {
            let (s, t) = match random.below(12) {
                0 => (0, 5),
                1 if case % 16 == 0 => (4_096 + random.below(2), 4_097 - random.below(2)),
                _ => (1 + random.below(30), random.below(30)),
            };
            let pairs = [b"ende", b"ende", b"enen", b"enen", b"endE", b"eNeN"];
            let [f0, f1, t0, t1] = *random.one_of(&pairs);
            book.units.push(Unit {
                from: [f0, f1],
                to: [t0, t1],
                source: random.some_bytes(s),
                target: random.some_bytes(t),
            });
        }
        let (mut bytes, _) = book.laid_out();
        let mut key = book.key.to_vec();
        match random.below(8) {
            0 => bytes.truncate(random.below(bytes.len())),
            1 => bytes.push(0),
            2 => bytes[14 + random.below(2)] = random.below(16) as u8,
            3 => bytes[20] ^= 1,
            4..6 => {
                let at = random.below(bytes.len());
                bytes[at] = random.one_of(&[0, 1, 2, 3, 0x10, 0x11, 0x12, 0x14, 0x20, 0x21, 0xFF]);
            }
            6 => key.truncate(16 - random.below(2)),
            _ => (),
        }
        let expected = check(&key, &bytes);
        assert_eq!(baseline::check(&key, &bytes), expected, "{name}");
        answers[case % 2][expected.err().unwrap_or(0) as usize] += 1;
        let same = book.units.iter().any(|unit| unit.from == unit.to);
        equal[case % 2] += usize::from(same && expected.is_ok());
    }
    for number in [0, 1, 2, 8, 11, 12, 14, 15] {
        assert!(answers.iter().all(|of| of[number] > 50), "{answers:?}");
    }
    assert!(equal.iter().all(|count| *count > 50), "{equal:?}");
}

/// "one kind per book": units and a close of any kinds, each sealed as its own kind has it.
#[test]
fn mixed_kinds() {
    let mut random = Random::new(SEED + 1);
    let mut accepted = 0;
    for case in 0..600 {
        let name = format!("seed {:X}, case {case}", SEED + 1);
        let suite = random.one_of(&SUITES);
        let book = Book::random(&mut random, suite);
        let unit = Unit {
            from: *b"en",
            to: *b"de",
            source: random.some_bytes(9),
            target: Vec::new(),
        };
        let kinds = [(); 3].map(|()| random.one_of(&Kind::ALL));
        let kinds = &kinds[random.below(3)..];
        let (close, units) = kinds.split_last().expect("a close");
        let mut bytes = book.opening();
        for (number, kind) in units.iter().enumerate() {
            bytes.extend(book.unit(*kind, number, &unit).0);
        }
        bytes.extend(book.close(*close, units.len()).0);
        let one_kind = units.iter().all(|kind| kind == close);
        // a header of 2 blocks, a unit's text of one, and a tag
        let calls = 4 * units.len() as u64 + 3;
        let expected = match one_kind {
            true => Ok((units.len() as u64, calls)),
            false => Err(14),
        };
        assert_eq!(baseline::check(&book.key, &bytes), expected, "{name}");
        assert_eq!(check(&book.key, &bytes), expected, "{name}");
        accepted += usize::from(one_kind);
    }
    assert!((200..500).contains(&accepted), "{accepted}");
}

/// A book of kind, suite and key, with so many units of 1 + 0 bytes, open and closed.
fn of_units(kind: Kind, book: &Book, count: usize) -> (Vec<u8>, Vec<u8>, u64) {
    let mut bytes = vec![0; 16 + count * kind.unit_len(1, 0) + kind.close_len()];
    let (cipher, steps) = (book.cipher, book.steps);
    let (mut writer, answer) = baseline::start(cipher, steps, &book.key, book.number, &mut bytes);
    assert_eq!(answer, Ok(()));
    for _ in 0..count {
        let answer = writer.add_of(kind, &mut bytes, b"en", b"de", b"a", b"");
        assert_eq!(answer, Ok(()));
    }
    let open = bytes[..writer.place as usize].to_vec();
    assert_eq!(writer.close_of(kind, &mut bytes), Ok(()));
    (open, bytes, writer.calls)
}

/// The longest old book; one more unit behind its last one, which is read, as its number has two bytes; then
/// no close can have the count, and no unit the next number.
#[test]
fn a_full_old_book() {
    let (kind, mut book) = (Kind::Tag10, Book::known(Kind::Tag10, [3; 16]));
    let unit = Unit {
        source: b"a".to_vec(),
        target: Vec::new(),
        ..book.units.remove(0)
    };
    let check = |bytes: &[u8]| baseline::check(&book.key, bytes);
    let (mut bytes, closed, calls) = of_units(kind, &book, 65_535);
    assert_eq!(check(&closed), Ok((65_535, calls)));
    bytes.extend(book.unit(kind, 65_535, &unit).0);
    assert_eq!(check(&bytes), Err(14));
    for count in [0, 65_535] {
        let more = [&bytes[..], &book.close(kind, count).0].concat();
        assert_eq!(check(&more), Err(15), "{count}");
        let more = [&bytes[..], &book.unit(kind, count, &unit).0].concat();
        assert_eq!(check(&more), Err(15), "{count}");
    }
    let last = bytes.len() - 1;
    bytes[last] ^= 1;
    assert_eq!(check(&bytes), Err(8));
}

/// A wide book goes on where an old one ends.
#[test]
fn a_wide_book() {
    let book = Book::known(Kind::Tag14, [3; 16]);
    for count in [65_535, 65_536, 65_600] {
        let (open, closed, calls) = of_units(Kind::Tag14, &book, count);
        let check = |bytes: &[u8]| baseline::check(&book.key, bytes);
        assert_eq!(check(&closed), Ok((count as u64, calls)));
        let one_less = [&open[..], &book.close(Kind::Tag14, count - 1).0].concat();
        assert_eq!(check(&one_less), Err(15));
        let old_close = [&open[..], &book.close(Kind::Tag10, count % 65_536).0].concat();
        assert_eq!(check(&old_close), Err(14));
    }
}
