//! Fetching and walking in the baseline in C, and in the second implementation, against units that are known
//! and the reference's checker, so that what is measured is the fetching of units.

use bench::baseline;
use reference::book::{places, Book, Kind, Unit};
use reference::check::check;
use reference::cipher::SUITES;
use reference::fetch::ciphertext;
use reference::random::Random;
use reference::vectors::{book_vectors, books_vectors, fetch_vectors};

const SEED: u64 = 0x4645_5443;

/// Fetches unit `k` to an output of so many bytes, and sees that this unit or refusal is given, and that
/// no other byte of the output is written; and that its ciphertext is found where it is there.
fn assert_fetch(
    name: &str,
    key: &[u8],
    book: &[u8],
    k: u64,
    out_len: usize,
    expected: Result<&Unit, u32>,
) {
    let mut out = vec![0x5A; out_len];
    let answer = baseline::fetch(key, book, k, &mut out);
    let lengths = expected.map(|unit| (unit.source.len(), unit.target.len()));
    assert_eq!(answer, lengths, "{name}, unit {k}");
    let mut left = expected.map_or(Vec::new(), |unit| [&unit.source[..], &unit.target].concat());
    left.resize(out_len, 0x5A);
    assert!(out == left, "{name}, unit {k}: the output");

    let answer = reference::fetch::fetch(key, book, k, out_len);
    let answer = answer.map(|fetched| (fetched.source, fetched.target));
    let segments = expected.map(|unit| (unit.source.clone(), unit.target.clone()));
    assert!(answer == segments, "{name}, unit {k}: {:?}", answer.err());

    let part = baseline::ciphertext(book, k);
    assert_eq!(part, ciphertext(book, k), "{name}, unit {k}");
    match expected {
        Ok(unit) => assert_eq!(part.len(), unit.text().len(), "{name}, unit {k}"),
        // a key that is too short is not seen
        Err(1 | 11 | 13..=16) if key.len() == 16 => assert_eq!(part, 0..0, "{name}, unit {k}"),
        Err(_) => (),
    }
}

#[test]
fn fetch_vectors_hold() {
    let vectors = fetch_vectors();
    assert_eq!(vectors.len(), 80);
    for v in vectors {
        let mut out = vec![0x5A; v.room];
        let answer = baseline::fetch(&v.key, &v.book, v.k, &mut out);
        let lengths = v
            .answer
            .as_ref()
            .map(|unit| (unit.source.len(), unit.target.len()));
        assert_eq!(answer, lengths.map_err(|number| *number), "line {}", v.line);
        let unit = v.answer.ok();
        let mut left = unit.map_or(Vec::new(), |unit| [unit.source, unit.target].concat());
        left.resize(v.room, 0x5A);
        assert_eq!(out, left, "line {}", v.line);
        let part = baseline::ciphertext(&v.book, v.k);
        assert_eq!(part, v.ciphertext, "line {}", v.line);
    }
}

/// Every unit of the accepted books of book.txt and books.txt, as the reference takes these apart, and units
/// that they do not have.
#[test]
fn units_of_the_book_vectors() {
    let mut books = 0;
    for v in book_vectors().into_iter().chain(books_vectors()) {
        let Ok((count, _)) = v.answer else {
            continue;
        };
        let name = format!("line {}", v.line);
        let key = v.key[..].try_into().expect("an accepted key");
        let book = Book::taken_apart(&key, &v.book).expect("a book");
        for (k, unit) in book.units.iter().enumerate() {
            let (k, len) = (k as u64, unit.source.len() + unit.target.len());
            for more in [0, 1, 100] {
                assert_fetch(&name, &key, &v.book, k, len + more, Ok(unit));
            }
            for short in [len - 1, 0] {
                assert_fetch(&name, &key, &v.book, k, short, Err(7));
            }
        }
        assert_eq!(book.units.len(), count, "{name}");
        let count = count as u64;
        for k in [count, count + 1, count + 65_536, u64::MAX] {
            assert_fetch(&name, &key, &v.book, k, 8_192, Err(16));
        }
        books += 1;
    }
    assert_eq!(books, 8 + 22);
}

/// Where a book is not as it was written: its key or its opening fields, or the unit of this number, or
/// behind the last unit.
#[derive(Clone, Copy)]
enum Changed {
    Opening,
    From(usize),
}

/// The part of a book that its byte `at` stands in.
fn part_at(book: &Book, at: usize) -> Changed {
    let begun = places(book).into_iter().filter(|place| *place <= at);
    match begun.count() {
        0 => Changed::Opening,
        count => Changed::From(count - 1),
    }
}

/// What fetch gives of a book that is changed in one part only and gets this answer from the checker:
/// "the same, without 8 and 12 for units before k".
fn expected(
    book: &Book,
    changed: Changed,
    checked: Result<(u64, u64), u32>,
    k: u64,
) -> Result<&Unit, u32> {
    let unit = usize::try_from(k).ok().and_then(|k| book.units.get(k));
    let met = unit.map_or(book.units.len(), |_| k as usize);
    match (changed, checked) {
        (Changed::Opening, Err(number)) => Err(number),
        (Changed::From(part), Err(number)) if part == met => Err(number),
        (Changed::From(part), Err(number)) if part < met && ![8, 12].contains(&number) => {
            Err(number)
        }
        _ => unit.ok_or(16),
    }
}

/// Books with a unit that is not allowed, or changed in one part, or as they are.
#[test]
fn refusals_are_those_of_the_checker() {
    let mut random = Random::new(SEED);
    let mut answers = [[0; 17]; 2];
    for case in 0..3_000 {
        let name = format!("seed {SEED:X}, case {case}");
        let suite = random.one_of(&SUITES);
        let mut book = Book::random(&mut random, suite);
        book.kind = Kind::ALL[case % 2];
        for _ in 0..1 + random.below(4) {
            let (s, t) = (1 + random.below(30), random.below(30));
            book.units.push(Unit {
                from: *b"en",
                to: random.one_of(&[*b"de", *b"de", *b"en"]),
                source: random.some_bytes(s),
                target: random.some_bytes(t),
            });
        }
        let count = book.units.len();
        let mut changed = Changed::From(random.below(count));
        if let (Changed::From(part), 0..3) = (changed, random.below(10)) {
            let unit = &mut book.units[part];
            match random.below(8) {
                0..3 => {
                    unit.to = random.one_of(&[*b"dE", *b"{e", *b"`a"]);
                    if random.below(3) == 0 {
                        unit.from = unit.to;
                    }
                }
                3..7 => unit.source = vec![],
                _ => unit.source = random.some_bytes(4_097),
            }
        }
        let (mut bytes, _) = book.laid_out();
        let mut key = book.key.to_vec();
        if check(&key, &bytes).is_ok() {
            match random.below(8) {
                0 => {
                    bytes.truncate(random.below(bytes.len()));
                    changed = part_at(&book, bytes.len());
                }
                1 => {
                    bytes.push(random.one_of(&[0, 0x10, 0x14, 0x20, 0x21]));
                    changed = Changed::From(count);
                }
                2 => {
                    key.resize(random.one_of(&[0, 15, 16, 17]), 0);
                    changed = Changed::Opening;
                }
                3 => {
                    bytes[14 + random.below(2)] = random.below(16) as u8;
                    changed = Changed::Opening;
                }
                4..7 => {
                    let at = random.below(bytes.len());
                    bytes[at] =
                        random.one_of(&[0, 1, 2, 3, 0x10, 0x11, 0x12, 0x14, 0x20, 0x21, 0xFF]);
                    changed = part_at(&book, at);
                }
                _ => (),
            }
        }
        let checked = check(&key, &bytes);
        for k in 0..count as u64 + 2 {
            let mut expected = expected(&book, changed, checked, k);
            let mut out_len = random.below(70);
            if let Ok(unit) = expected {
                let len = unit.source.len() + unit.target.len();
                out_len = len + 2 - random.below(4).min(len + 2);
                if out_len < len {
                    expected = Err(7);
                }
            }
            answers[case % 2][expected.err().unwrap_or(0) as usize] += 1;
            assert_fetch(&name, &key, &bytes, k, out_len, expected);
        }
    }
    for number in [0, 1, 2, 7, 8, 11, 12, 14, 15, 16] {
        assert!(answers.iter().all(|of| of[number] > 30), "{answers:?}");
    }
}

/// A unit of 1 + 0 bytes.
fn one_byte() -> Unit {
    Unit {
        from: *b"en",
        to: *b"de",
        source: b"a".to_vec(),
        target: Vec::new(),
    }
}

/// A book of this kind with so many units of 1 + 0 bytes, and without a close.
fn of_units(kind: Kind, book: &Book, count: usize) -> Vec<u8> {
    let mut bytes = vec![0; 16 + count * kind.unit_len(1, 0)];
    let (cipher, steps) = (book.cipher, book.steps);
    let (mut writer, answer) = baseline::start(cipher, steps, &book.key, book.number, &mut bytes);
    assert_eq!(answer, Ok(()));
    let unit = one_byte();
    for _ in 0..count {
        let answer = writer.add_of(kind, &mut bytes, &unit.from, &unit.to, &unit.source, &[]);
        assert_eq!(answer, Ok(()));
    }
    bytes
}

/// The longest old book; one more unit behind its last one, which is read, as its number has two bytes; then
/// no close can have the count, and no unit the next number.
#[test]
fn a_full_old_book() {
    let (kind, unit) = (Kind::Tag10, one_byte());
    let book = Book::known(kind, [3; 16]);
    let open = of_units(kind, &book, 65_535);
    let bytes = [&open[..], &book.close(kind, 65_535).0].concat();
    assert_fetch("full", &book.key, &bytes, 65_534, 1, Ok(&unit));
    assert_fetch("full", &book.key, &bytes, 65_535, 1, Err(16));
    let more = [&open[..], &book.unit(kind, 65_535, &unit).0].concat();
    for count in [0, 65_535] {
        let close = [&more[..], &book.close(kind, count).0].concat();
        let another = [&more[..], &book.unit(kind, count, &unit).0].concat();
        for bytes in [&close, &another] {
            assert_fetch("one more", &book.key, bytes, 65_535, 1, Ok(&unit));
            assert_fetch("one more", &book.key, bytes, 65_536, 1, Err(15));
            assert_fetch("one more", &book.key, bytes, 65_537, 1, Err(15));
        }
    }
}

/// A wide book goes on where an old one ends.
#[test]
fn a_wide_book() {
    let (kind, unit) = (Kind::Tag14, one_byte());
    let book = Book::known(kind, [3; 16]);
    let mut bytes = of_units(kind, &book, 65_600);
    bytes.extend(book.close(kind, 65_600).0);
    for k in [65_534, 65_535, 65_536, 65_537, 65_599] {
        assert_fetch("wide", &book.key, &bytes, k, 1, Ok(&unit));
    }
    for k in [65_600, 65_601, 131_072, u64::MAX] {
        assert_fetch("wide", &book.key, &bytes, k, 1, Err(16));
    }
}

/// The longest wide book, with seals that a walk does not test, and one more unit behind its last one, as a
/// header and as a whole unit.
#[test]
fn one_unit_too_many() {
    let (kind, count) = (Kind::Tag14, 16_777_215u32);
    let book = Book::known(kind, [3; 16]);
    let mut pattern = book.unit(kind, 0, &one_byte()).0;
    let mut bytes = Vec::with_capacity(16 + (count as usize + 1) * pattern.len());
    bytes.extend(book.opening());
    for number in 0..=count {
        pattern[3..7].copy_from_slice(&number.to_be_bytes());
        bytes.extend(&pattern);
    }
    let (key, last) = (&book.key, u64::from(count) - 1);
    let at = 16 + last as usize * pattern.len() + kind.ciphertext_at();
    for bytes in [&bytes[..], &bytes[..bytes.len() - (pattern.len() - 11)]] {
        assert_eq!(baseline::ciphertext(bytes, last), at..at + 3);
        assert_eq!(baseline::fetch(key, bytes, last, &mut [0]), Err(8));
        for k in [last + 1, last + 2] {
            assert_eq!(baseline::ciphertext(bytes, k), 0..0);
            assert_eq!(baseline::fetch(key, bytes, k, &mut [0]), Err(13));
        }
    }
    assert_fetch("one more", key, &bytes, last + 1, 1, Err(13));
}
