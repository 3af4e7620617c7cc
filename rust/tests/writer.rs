//! Writing a book: the buffer grows, refusals leave the writer as it was, and the first cause is given.

mod common;

use common::{add, assert_unit, book, lengths, of_both_kinds, started, suite, written};
use reference::book::{self as second, places};
use reference::random::Random;
use sealed_book::Refusal::{LanguagesNotAllowed, SegmentLength};
use sealed_book::{ciphertext, clear_unit, fetch, raw, Book, Refusal, Suite, Writer};

const SEED: u64 = 0x5752_4954;

/// Known value 8: "Book 7, Scream 10 steps, opens 01 00 08 .. ; unit 0, en to de" goes on 14 00 08 .. ; "with s 5,
/// t 6 and a close" it has 88 bytes, 7 calls.
#[test]
fn known_book() {
    let key = [9; 16];
    let mut writer = Writer::start(Suite::SCREAM_10, &key, 7).unwrap();
    let opening = [1, 0, 8, 0, 0, 0, 0, 0, 0, 0, 7, 2, 0, 2, 1, 10];
    assert_eq!(writer.written(), opening);
    assert_eq!((writer.units(), writer.calls(), writer.len()), (0, 0, 16));
    assert_eq!(writer.add("en", "de", "valve", "Ventil"), Ok(0));
    assert_eq!((writer.units(), writer.calls(), writer.len()), (1, 4, 62));
    let before = writer.written().to_vec();
    assert_eq!(before[..16], opening);
    let head = [0x14, 0, 8, 0, 0, 0, 0, 0x65, 0x6E, 0x64, 0x65];
    assert_eq!(before[16..27], head);

    let (bytes, _) = writer.close().unwrap();
    assert_eq!(bytes.len(), 88);
    assert_eq!(bytes[..62], before);
    assert_eq!(Book::check(&key, &bytes).unwrap().calls(), 7);
}

/// The book that the library's own calls write into one buffer, which is long enough from the start.
fn in_one_buffer(book: &second::Book) -> Vec<u8> {
    let mut buffer = vec![0xEE; places(book).last().unwrap() + raw::CLOSE_ROOM];
    let mut writer = [0; raw::LEN];
    let (cipher, steps, number) = (book.cipher, book.steps, book.number);
    raw::start(cipher, steps, &book.key, number, &mut buffer, &mut writer).unwrap();
    for unit in &book.units {
        let (source, target) = (&unit.source, &unit.target);
        let answer = raw::add(
            &mut writer,
            &mut buffer,
            &unit.from,
            &unit.to,
            source,
            target,
        );
        assert_eq!(answer, Ok(()));
    }
    raw::close(&mut writer, &mut buffer).unwrap();
    assert_eq!(raw::place(&writer), buffer.len() as u64);
    buffer
}

/// However much memory there is at first, the book is the same, and what is written is told after each
/// call.
#[test]
fn grows() {
    let mut random = Random::new(SEED);
    let mut lengths = lengths(&mut random, 40, 90);
    lengths.extend([(4_096, 4_096), (1, 0), (4_096, 0), (1, 4_096), (7, 7)]);
    for suite in Suite::ALL {
        let book = book(&mut random, suite, &lengths);
        let expected = in_one_buffer(&book);
        let places = places(&book);
        let exact = expected.len();
        for capacity in [0, 1, 16, 17, 41, 42, 1_000, exact - 1, exact, 3 * exact] {
            let name = format!("{suite}, {capacity} bytes, seed {SEED:X}");
            let mut writer =
                Writer::with_capacity(suite, &book.key, book.number, capacity).unwrap();
            for (k, unit) in book.units.iter().enumerate() {
                assert_eq!((writer.units(), writer.len()), (k as u64, places[k]));
                assert!(writer.written() == &expected[..places[k]], "{k}, {name}");
                assert_eq!(add(&mut writer, unit), Ok(k as u64), "{name}");
            }
            assert!(writer.close().unwrap().0 == expected, "{name}");
        }
        assert!(written(&book) == expected, "{suite}, seed {SEED:X}");
    }
}

/// A close that has no room finds it, whatever is left of the buffer.
#[test]
fn close_grows() {
    let (suite, key) = (Suite::SCREAM_6, [4; 16]);
    for left in 0..30 {
        let place = raw::FIRST_UNIT + raw::unit_room(4, 0);
        let mut writer = Writer::with_capacity(suite, &key, 1, place + left).unwrap();
        assert_eq!(writer.add("en", "de", "abcd", ""), Ok(0));
        assert_eq!(writer.len(), place);
        let (bytes, _) = writer.close().unwrap();
        assert_eq!(bytes.len(), raw::book_room(1, 4));
        assert_eq!(Book::check(&key, &bytes).unwrap().len(), 1);
    }
}

/// Sources, targets and codes that are refused, each with its refusal.
fn refused() -> Vec<(&'static str, &'static str, usize, usize, Refusal)> {
    let mut calls = Vec::new();
    let codes = [
        // not two bytes
        ("", "de"),
        ("e", "de"),
        ("en", "d"),
        ("eng", "de"),
        ("en", "deu"),
        ("en", ""),
        ("", ""),
        ("é", "d"),
        // two bytes, and not letters a to z
        ("EN", "de"),
        ("en", "dE"),
        ("é", "de"),
        ("en", "ü"),
        ("e1", "de"),
        ("en", "d\0"),
        ("\0\0", "de"),
        ("en", "`a"),
        ("{a", "de"),
        // the same, and no letters or not two bytes
        ("EN", "EN"),
        ("e1", "e1"),
        ("\0\0", "\0\0"),
        ("en\0", "en\0"),
        ("eng", "eng"),
    ];
    let segments = [
        (0, 0),
        (0, 5),
        (4_097, 0),
        (1, 4_097),
        (0, 4_097),
        (5_000, 9_000),
    ];
    for (from, to) in codes {
        calls.push((from, to, 1, 0, LanguagesNotAllowed));
        // the codes come before the lengths
        for (s, t) in segments {
            calls.push((from, to, s, t, LanguagesNotAllowed));
        }
    }
    for (s, t) in segments {
        calls.push(("en", "de", s, t, SegmentLength));
    }
    calls
}

/// After a refusal units are added as if it had not been.
#[test]
fn refusals_leave_the_writer() {
    let mut random = Random::new(SEED + 1);
    let calls = refused();
    let lengths = lengths(&mut random, calls.len(), 70);
    let book = book(&mut random, Suite::ISCREAM_12, &lengths);
    let mut writer = started(&book);
    for (unit, (from, to, s, t, refusal)) in book.units.iter().zip(calls) {
        let name = format!("{from:?}, {to:?}, {s}, {t}");
        let before = writer.written().to_vec();
        let counts = (writer.units(), writer.calls());
        let answer = writer.add(from, to, vec![b'a'; s], vec![b'b'; t]);
        assert_eq!(answer, Err(refusal), "{name}");
        assert_eq!((writer.units(), writer.calls()), counts, "{name}");
        assert!(writer.written() == before, "{name}");
        assert_eq!(add(&mut writer, unit), Ok(counts.0), "after {name}");
    }
    assert!(writer.close().unwrap().0 == in_one_buffer(&book));
}

/// Every code with itself, in books of both kinds: the unit is added, and read by every way to read it.
#[test]
fn the_same_code_twice() {
    let mut random = Random::new(SEED + 4);
    let letters = b'a'..=b'z';
    let codes: Vec<[u8; 2]> = letters
        .clone()
        .flat_map(|a| letters.clone().map(move |b| [a, b]))
        .collect();
    assert_eq!(codes.len(), 26 * 26);
    let mut given = book(&mut random, Suite::SCREAM_10, &vec![(3, 2); codes.len()]);
    for (unit, code) in given.units.iter_mut().zip(&codes) {
        (unit.from, unit.to) = (*code, *code);
    }
    assert!(written(&given) == in_one_buffer(&given));
    assert!(written(&given) == given.laid_out().0);
    for given in of_both_kinds(&given) {
        let (bytes, kind) = (written(&given), given.kind);
        let checked = Book::check(&given.key, &bytes).unwrap();
        // each unit: two blocks of the header, one of the text, and the tag
        assert_eq!((checked.len(), checked.calls()), (676, 4 * 676 + 3));
        assert_eq!(checked.page("").unwrap().lines().count(), 676);
        for (k, added) in given.units.iter().enumerate() {
            let (number, name) = (k as u64, format!("unit {k}, {kind:?}"));
            let fetched = fetch(&given.key, &bytes, number).unwrap();
            assert_unit(&fetched, k, added, &name);
            assert_eq!(checked.fetch(number), Ok(fetched), "{name}");
            let clear = clear_unit(&bytes, number).unwrap();
            let said = [clear.source_language(), clear.target_language()];
            assert_eq!(said.map(str::as_bytes), [&codes[k][..]; 2], "{name}");
        }
    }
}

/// More units than two bytes count: codes and lengths are still refused, and the book is whole.
#[test]
fn past_65_535_units() {
    let mut random = Random::new(SEED + 2);
    let book = book(&mut random, Suite::SCREAM_6, &vec![(1, 0); 65_540]);
    let mut writer = started(&book);
    for (k, unit) in book.units.iter().enumerate() {
        assert_eq!(add(&mut writer, unit), Ok(k as u64));
    }
    let len = writer.len();
    assert_eq!(len, 16 + 65_540 * 36);
    assert_eq!(writer.add("en", "de", "", ""), Err(SegmentLength));
    assert_eq!(writer.add("en", "e", "a", ""), Err(LanguagesNotAllowed));
    assert_eq!((writer.units(), writer.len()), (65_540, len));

    let (bytes, _) = writer.close().unwrap();
    let checked = Book::check(&book.key, &bytes).unwrap();
    // each unit: two blocks of the header, one of the text, and the tag
    assert_eq!((checked.len(), checked.calls()), (65_540, 4 * 65_540 + 3));
    let mut units = 0;
    for (fetched, added) in checked.iter().zip(&book.units) {
        assert_unit(&fetched.unwrap(), units, added, &format!("unit {units}"));
        units += 1;
    }
    assert_eq!(units, 65_540);
    for k in (0..65_540).rev().step_by(31).chain(65_534..65_538) {
        let unit = checked.fetch(k as u64).unwrap();
        assert_unit(&unit, k, &book.units[k], &format!("unit {k} alone"));
    }
    assert_eq!(checked.fetch(65_540), Err(Refusal::NoSuchUnit));
}

/// Whatever lends bytes can be added, and need not be text.
#[test]
fn any_bytes() {
    let key = [3; 16];
    let mut writer = Writer::start(Suite::ISCREAM_8, &key, u64::MAX).unwrap();
    writer.add("aa", "ab", [0xFF, 0x00], vec![0x80]).unwrap();
    writer.add("aa", "ab", String::from("é"), b"\n").unwrap();
    let (bytes, _) = writer.close().unwrap();
    let book = Book::check(&key, &bytes).unwrap();
    assert_eq!(book.number(), u64::MAX);

    let unit = book.fetch(0).unwrap();
    assert_eq!(
        (&unit.source[..], &unit.target[..]),
        (&[0xFF, 0][..], &[0x80][..])
    );
    assert!(unit.source_text().is_err() && unit.target_text().is_err());
    let unit = book.fetch(1).unwrap();
    assert_eq!(
        (unit.source_text(), unit.target_text()),
        (Ok("é"), Ok("\n"))
    );
    assert_eq!(
        (unit.source_language(), unit.target_language()),
        ("aa", "ab")
    );
}

/// Neither a writer nor a book shows its key, and a unit not its text.
#[test]
fn debug_shows_no_secret() {
    let key = [0xA7; 16];
    let mut writer = Writer::start(Suite::SCREAM_10, &key, 7).unwrap();
    writer.add("en", "de", "valve", "Ventil").unwrap();
    let shown = format!("{writer:?}");
    assert_eq!(shown, "Writer { units: 1, calls: 4, len: 62, .. }");
    let (bytes, _) = writer.close().unwrap();
    let book = Book::check(&key, &bytes).unwrap();
    let expected =
        "Book { suite: Suite { cipher: Scream, steps: 10 }, number: 7, units: 1, calls: 7, .. }";
    assert_eq!(format!("{book:?}"), expected);
    let expected = "Units { next: 0, units: 1, .. }";
    assert_eq!(format!("{:?}", book.iter()), expected);
    let expected = "Unit { number: 0, from: \"en\", to: \"de\", source_len: 5, target_len: 6, .. }";
    assert_eq!(format!("{:?}", book.fetch(0).unwrap()), expected);
    let expected = "ClearUnit { number: 0, from: \"en\", to: \"de\", ciphertext_len: 13, .. }";
    assert_eq!(format!("{:?}", clear_unit(&bytes, 0).unwrap()), expected);
}

/// The number that is given counts: the same unit under another one has another ciphertext.
#[test]
fn numbers_count() {
    let mut random = Random::new(SEED + 3);
    let mut book = book(&mut random, Suite::SCREAM_8, &[(40, 40)]);
    let one = written(&book);
    book.number ^= 1 << 63;
    let other = written(&book);
    assert_ne!(ciphertext(&one, 0), ciphertext(&other, 0));
    for (bytes, number) in [(&one, book.number ^ 1 << 63), (&other, book.number)] {
        let checked = Book::check(&book.key, bytes).unwrap();
        assert_eq!((checked.number(), checked.suite()), (number, suite(&book)));
    }
}
