//! Fetching from books that were changed after they were written: what is handed out is always the unit
//! as it was written, and a change is seen at the unit itself; of the units before it only what frames
//! them is looked at, and nothing of what stands behind it.

mod common;

use common::fetching::{
    fetch_gives, fetched, fetches, of_book, refuses, Answer, Which::Walked, ROOM,
};
use common::parts::{
    books_of_each_kind, close_fields, number_in, random_book, renumber, some_book, three_units,
    unit_fields, written, Parts,
};
use common::spoiling::{damage, some_frames};
use common::swapped;
use common::writing::unit;
use reference::book::{places, Book, Kind, Unit};
use reference::cipher::SUITES;
use reference::random::Random;
use sealed_book::raw::{check, fetch};
use sealed_book::Refusal;

const SEED: u64 = 0x4644_414D;

/// A book of each suite with no unit, one, or two, all short, and its bytes; of each kind four.
fn small_books(random: &mut Random) -> Vec<(Book, Vec<u8>)> {
    let books = SUITES.into_iter().enumerate();
    books
        .map(|(i, suite)| {
            let mut book = random_book(random, suite, (i + 2) % 3, 8);
            book.kind = Kind::ALL[i % 2];
            let (bytes, _) = written(&book);
            (book, bytes)
        })
        .collect()
}

/// Fetches each unit and two that the book has not, as the reference does. What is handed out is what
/// was written.
fn fetch_each(book: &Book, damaged: &[u8], name: &str) -> Vec<Answer> {
    let ks = 0..book.units.len() as u64 + 2;
    let fetch = |k| {
        let answer = fetched(&book.key, damaged, Walked(k), 100, name);
        if answer.is_ok() {
            assert_eq!(answer, of_book(book, k), "reference: {k}, {name}");
        }
        answer
    };
    ks.map(fetch).collect()
}

/// The answers: those of the book as it was written for numbers below one, and this refusal from it on.
fn refused_from(book: &Book, from: usize, number: u32) -> Vec<Answer> {
    let ks = 0..book.units.len() + 2;
    ks.map(|k| match k < from {
        true => of_book(book, k as u64),
        false => Err(number),
    })
    .collect()
}

/// The answers of the book as it was written, but for these.
fn refused_at(book: &Book, refusals: &[(usize, u32)]) -> Vec<Answer> {
    let ks = 0..book.units.len() + 2;
    ks.map(|k| {
        let refusal = refusals.iter().find(|(at, _)| *at == k);
        refusal.map_or(of_book(book, k as u64), |(_, number)| Err(*number))
    })
    .collect()
}

/// Each byte in some bits and in all, and as the tag of each field. Each answer is known but for that of
/// units behind one whose frame is changed.
#[test]
fn changed_bytes() {
    let mut random = Random::new(SEED);
    for (book, bytes) in small_books(&mut random) {
        let (places, units) = (places(&book), book.units.len());
        for at in 0..bytes.len() {
            let changes = [0x01, 0x20, 0x80, 0xFF].map(|change| bytes[at] ^ change);
            let tags = [0x01, 0x02, 0x10, 0x11, 0x12, 0x14, 0x20, 0x21];
            let start = places.iter().rposition(|place| *place <= at);
            for byte in changes.into_iter().chain(tags) {
                if byte == bytes[at] {
                    continue;
                }
                let mut damaged = bytes.clone();
                damaged[at] = byte;
                let name = format!("byte {at} {byte:02X}, seed {SEED:X}");
                let answers = fetch_each(&book, &damaged, &name);
                for (k, answer) in answers.iter().enumerate() {
                    let expected = of_book(&book, k as u64);
                    match start {
                        Some(part) if k < part => assert_eq!(*answer, expected, "{name}"),
                        Some(part) if k > part && part < units => {
                            let end = places[part + 1];
                            let value = places[part] + book.kind.ciphertext_at()..end - 19;
                            if value.contains(&at) || (end - 16..end).contains(&at) {
                                assert_eq!(*answer, expected, "{name}");
                            }
                        }
                        _ => assert_ne!(*answer, expected, "{name}"),
                    }
                }
            }
        }
    }
}

/// Every value of each byte of a small book.
#[test]
fn every_value_of_each_byte() {
    let mut random = Random::new(SEED + 1);
    for mut book in books_of_each_kind(&mut random, (1, 6)) {
        book.units = vec![unit(&mut random, 1, 0), unit(&mut random, 2, 1)];
        let (bytes, _) = written(&book);
        let mut damaged = bytes.clone();
        for at in 0..bytes.len() {
            for byte in 0..=255 {
                damaged[at] = byte;
                let k = random.below(4) as u64;
                let name = format!("byte {at} {byte:02X}, seed {:X}", SEED + 1);
                let answer = fetched(&book.key, &damaged, Walked(k), 3, &name);
                assert!(answer.is_err() || answer == of_book(&book, k), "{name}");
            }
            damaged[at] = bytes[at];
        }
    }
}

/// Each bit of the key, and a key of another book: the tag of unit k or of the close differs.
#[test]
fn another_key() {
    let mut random = Random::new(SEED + 2);
    for (book, bytes) in small_books(&mut random) {
        for bit in 0..=128 {
            let mut key = book.key;
            match key.get_mut(bit / 8) {
                Some(byte) => *byte ^= 1 << (bit % 8),
                None => key = random.bytes(),
            }
            for k in 0..book.units.len() as u64 + 2 {
                fetch_gives(&key, &bytes, Walked(k), 20, &Err(8), &format!("bit {bit}"));
            }
        }
        refuses(&random.bytes::<16>(), &bytes, Walked(0), 8, "another key");
    }
}

/// Each bit of the book number, and another suite.
#[test]
fn another_opening() {
    let mut random = Random::new(SEED + 3);
    for (book, bytes) in small_books(&mut random) {
        for bit in 0..64 {
            let mut damaged = bytes.clone();
            damaged[3 + bit / 8] ^= 1 << (bit % 8);
            let answers = fetch_each(&book, &damaged, &format!("bit {bit}"));
            assert_eq!(answers, refused_from(&book, 0, 8));
        }
        for (cipher, steps) in SUITES {
            if (cipher, steps) != (book.cipher, book.steps) {
                let mut damaged = bytes.clone();
                (damaged[14], damaged[15]) = (cipher, steps);
                let answers = fetch_each(&book, &damaged, "another suite");
                assert_eq!(answers, refused_from(&book, 0, 8));
            }
        }
    }
}

/// The start of a book alone: the units that end within it are handed out.
#[test]
fn truncated() {
    let mut random = Random::new(SEED + 4);
    for (book, bytes) in small_books(&mut random) {
        let places = places(&book);
        for len in 0..bytes.len() {
            let name = format!("{len} of {} bytes", bytes.len());
            let answers = fetch_each(&book, &bytes[..len], &name);
            let whole = places[1..].iter().filter(|end| **end <= len).count();
            assert_eq!(answers, refused_from(&book, whole, 14), "{name}");
        }
    }
}

/// Each byte taken away, and bytes put in at each place and left over.
#[test]
fn bytes_taken_away_and_put_in() {
    let mut random = Random::new(SEED + 5);
    for (book, bytes) in small_books(&mut random) {
        let (places, units) = (places(&book), book.units.len());
        for at in 0..bytes.len() {
            let (start, rest) = bytes.split_at(at);
            // units that end before the change are as they were
            let whole = places[1..].iter().filter(|end| **end <= at).count();
            let assert_damaged = |damaged: &[u8], name: &str| {
                let answers = fetch_each(&book, damaged, name);
                for (k, answer) in answers.iter().enumerate().take(whole) {
                    assert_eq!(*answer, of_book(&book, k as u64), "{name}");
                }
                // it is seen where all units are walked past
                assert!(
                    answers[units..].iter().all(|answer| *answer != Err(16)),
                    "{name}"
                );
            };
            assert_damaged(&[start, &rest[1..]].concat(), &format!("without byte {at}"));
            let mut byte = random.one_of(&[0x00, 0x10, 0x14, 0x20, 0x21, 0xFF, bytes[at]]);
            if byte == bytes[at].wrapping_add(1) {
                // as the length of a ciphertext it would make up for itself, and no seal is looked at
                byte = bytes[at];
            }
            let name = format!("{byte:02X} put in at {at}");
            assert_damaged(&[start, &[byte], rest].concat(), &name);
        }
        let close = &bytes[bytes.len() - book.kind.close_len()..];
        let tags = [[0x10], [0x14], [0x20], [0x21]];
        let tags = tags.iter().map(|tag| &tag[..]);
        for more in [&[0][..], &[0xFF; 24], close, &bytes]
            .into_iter()
            .chain(tags)
        {
            let name = format!("{} bytes left over", more.len());
            let answers = fetch_each(&book, &[&bytes, more].concat(), &name);
            assert_eq!(answers, refused_from(&book, units, 14), "{name}");
        }
    }
}

/// Units that change places, are dropped and are there twice: seen where the numbers do not run on, or at
/// the unit itself.
#[test]
fn units_exchanged() {
    let mut random = Random::new(SEED + 6);
    for suite in SUITES {
        let book = three_units(&mut random, suite);
        let parts = Parts::of(&book);
        let change = |expected: Vec<Answer>, name: &str, change: &dyn Fn(&mut Parts)| {
            let mut parts = parts.clone();
            change(&mut parts);
            let answers = fetch_each(&book, &parts.joined(), name);
            assert_eq!(answers, expected, "{name}");
        };
        let from = |at, number| refused_from(&book, at, number);
        for (one, other) in [(0, 1), (1, 2), (0, 2)] {
            change(from(one, 15), "exchanged", &|parts| {
                parts.units.swap(one, other)
            });
            let expected = refused_at(&book, &[(one, 8), (other, 8)]);
            change(expected, "exchanged, in running order", &|parts| {
                parts.units.swap(one, other);
                renumber(&mut parts.units[one], one as u8);
                renumber(&mut parts.units[other], other as u8);
            });
        }
        for at in 0..3 {
            change(from(at, 15), "dropped", &|parts| {
                drop(parts.units.remove(at))
            });
            change(from(at + 1, 15), "doubled", &|parts| {
                parts.units.insert(at, parts.units[at].clone())
            });
            // the close counts one fewer
            let mut expected = from(at + 1, 8);
            expected[4] = Err(15);
            change(expected, "doubled, in running order", &|parts| {
                parts.units.insert(at, parts.units[at].clone());
                for (i, unit) in parts.units.iter_mut().enumerate() {
                    renumber(unit, i as u8);
                }
            });
            change(from(at, 15), "another number", &|parts| {
                renumber(&mut parts.units[at], at as u8 + 1)
            });
            change(from(at, 15), "a number with the same low byte", &|parts| {
                parts.units[at][3] = 1
            });
        }
        change(from(0, 15), "no unit", &|parts| parts.units.clear());
        change(from(3, 14), "no close", &|parts| parts.close.clear());
        change(from(2, 14), "a unit behind the close", &|parts| {
            let last = parts.units.pop();
            parts.close = close_fields(&book, 2, 2).concat();
            parts.close.extend(last.expect("three units"));
        });
    }
}

/// The count at the close, changed after the sealing and sealed so.
#[test]
fn wrong_count() {
    let mut random = Random::new(SEED + 7);
    for suite in SUITES {
        let book = three_units(&mut random, suite);
        let parts = Parts::of(&book);
        let count_end = 3 + book.kind.number_bytes();
        for count in [0, 1, 2, 4, 0x103, 0x300, 0xFFFF] {
            let mut changed = parts.clone();
            changed.close[3..count_end].copy_from_slice(&number_in(book.kind, count));
            let answers = fetch_each(&book, &changed.joined(), "count changed");
            assert_eq!(answers, refused_from(&book, 3, 15));
            changed.close = close_fields(&book, count, count).concat();
            let answers = fetch_each(&book, &changed.joined(), "another count sealed");
            assert_eq!(answers, refused_from(&book, 3, 15));
            if count < 3 {
                changed.units.truncate(count);
                let answers = fetch_each(&book, &changed.joined(), "a book of the first units");
                assert_eq!(answers, refused_from(&book, count, 16));
                changed.close = parts.close.clone();
                changed.close[3..count_end].copy_from_slice(&number_in(book.kind, count));
                let answers = fetch_each(&book, &changed.joined(), "units dropped, count changed");
                assert_eq!(answers, refused_from(&book, count, 8));
            }
        }
    }
}

/// Parts of a book with another number, under another key, or in another suite.
#[test]
fn parts_of_another_book() {
    let mut random = Random::new(SEED + 8);
    for (i, suite) in SUITES.into_iter().enumerate() {
        let book = three_units(&mut random, suite);
        let parts = Parts::of(&book);
        let (cipher, steps) = SUITES[(i + 3) % 8];
        let mut others = vec![three_units(&mut random, suite), book.clone(), book.clone()];
        others[0].kind = book.kind;
        others[1].number ^= 1;
        others[2].key[15] ^= 1;
        others.push(Book {
            cipher,
            steps,
            ..book.clone()
        });
        for other in others {
            let other = Parts::of(&other);
            let name = "a part of another book";
            for at in 0..3 {
                let mut changed = parts.clone();
                changed.units[at] = other.units[at].clone();
                let answers = fetch_each(&book, &changed.joined(), name);
                assert_eq!(answers, refused_at(&book, &[(at, 8)]), "{name}");
            }
            let mut changed = parts.clone();
            changed.close = other.close;
            let answers = fetch_each(&book, &changed.joined(), name);
            assert_eq!(answers, refused_from(&book, 3, 8), "{name}");
            if other.opening != parts.opening {
                let mut changed = parts.clone();
                changed.opening = other.opening;
                let answers = fetch_each(&book, &changed.joined(), name);
                assert_eq!(answers, refused_from(&book, 0, 8), "{name}");
            }
        }
    }
}

/// Blocks, ciphertexts and tags change places within a unit, between two units, and between a unit and
/// the close.
#[test]
fn sealed_parts_exchanged() {
    let mut random = Random::new(SEED + 9);
    for suite in SUITES {
        let mut book = some_book(&mut random, suite);
        book.units = (0..3).map(|_| unit(&mut random, 40, 38)).collect();
        let parts = Parts::of(&book);
        let start = book.kind.ciphertext_at();
        for (one, other) in [(0, 1), (1, 3), (0, 4)] {
            let mut changed = parts.clone();
            let blocks = swapped(&parts.units[1][start..], one, other);
            changed.units[1][start..].copy_from_slice(&blocks);
            let answers = fetch_each(&book, &changed.joined(), "blocks of a unit");
            assert_eq!(answers, refused_at(&book, &[(1, 8)]));
        }
        let tag = start + 80 + 3;
        for (range, name) in [
            (start..start + 16, "the first block"),
            (start + 64..start + 80, "the last block"),
            (start..start + 80, "the ciphertext"),
            (tag..tag + 16, "the tag"),
            (start..tag + 16, "ciphertext and tag"),
        ] {
            let mut changed = parts.clone();
            changed.units[0][range.clone()].copy_from_slice(&parts.units[2][range.clone()]);
            changed.units[2][range.clone()].copy_from_slice(&parts.units[0][range]);
            let answers = fetch_each(&book, &changed.joined(), name);
            assert_eq!(answers, refused_at(&book, &[(0, 8), (2, 8)]), "{name}");
        }
        let mut changed = parts.clone();
        let close_tag = book.kind.close_len() - 16;
        changed.close[close_tag..].copy_from_slice(&parts.units[2][tag..]);
        changed.units[2][tag..].copy_from_slice(&parts.close[close_tag..]);
        let answers = fetch_each(&book, &changed.joined(), "tags of a unit and the close");
        assert_eq!(answers, refused_from(&book, 2, 8));
    }
}

/// A text that is sealed as another unit's, or with other codes.
#[test]
fn sealed_for_another_place() {
    let mut random = Random::new(SEED + 10);
    for suite in SUITES {
        let mut book = three_units(&mut random, suite);
        (book.units[1].from, book.units[1].to) = (*b"en", *b"de");
        let parts = Parts::of(&book);
        let text = book.units[1].text();
        let unit = |running, number, codes| unit_fields(&book, running, number, codes, &text);
        let codes = *b"ende";
        let mut exchanged = unit(1, 1, codes);
        let end = exchanged[0].len();
        exchanged[0][end - 4..].rotate_left(2);
        for (unit, number, name) in [
            (unit(0, 1, codes), 8, "the nonce of another unit"),
            (
                unit(0x1_0001, 1, codes),
                8,
                "a nonce with the same two bytes",
            ),
            (
                unit(0x100_0001, 1, codes),
                8,
                "a nonce with the same three bytes",
            ),
            (unit(1, 2, codes), 15, "the number of another unit"),
            (exchanged, 8, "codes exchanged after the sealing"),
        ] {
            let mut changed = parts.clone();
            changed.units[1] = unit.concat();
            let answers = fetch_each(&book, &changed.joined(), name);
            let expected = match number {
                8 => refused_at(&book, &[(1, 8)]),
                _ => refused_from(&book, 1, number),
            };
            assert_eq!(answers, expected, "{name}");
        }
    }
}

/// A text that would be known again, with a bit of its ciphertext, its tag or its header changed: no byte
/// of it is in the output, wherever the bit stands, and however long the output is.
#[test]
fn nothing_of_a_text_that_is_not_accepted() {
    let mut random = Random::new(SEED + 11);
    for suite in SUITES {
        for (s, t) in [(1, 0), (14, 0), (100, 57), (4_096, 4_096)] {
            let mut book = some_book(&mut random, suite);
            let long = Unit {
                from: *b"en",
                to: *b"de",
                source: vec![b'S'; s],
                target: vec![b'T'; t],
            };
            book.units = vec![unit(&mut random, 3, 2), long];
            let (bytes, _) = written(&book);
            let [_, start, end] = places(&book)[..] else {
                panic!("two units");
            };
            let ciphertext = start + book.kind.ciphertext_at();
            for at in [
                3,
                10,
                ciphertext - 7,
                ciphertext,
                ciphertext + 2,
                ciphertext + random.below(s + t + 2),
                end - 20,
                end - 16,
                end - 1,
            ] {
                let mut damaged = bytes.clone();
                damaged[at] ^= 1;
                for out_len in [s + t, s + t + 50, ROOM + 16] {
                    let mut out = vec![b'.'; out_len];
                    let answer = fetch(&book.key, &damaged, 1, &mut out);
                    let name = format!("byte {at}, suite {suite:?}");
                    assert_eq!(answer, Err(Refusal::TagDiffers), "{name}");
                    assert!(out.iter().all(|byte| *byte == b'.'), "{name}");
                }
            }
            fetches(&book.key, &bytes, Walked(1), &book.units[1], "as written");
        }
    }
}

/// What the library's checking says is what the first refusal of fetching unit 0, unit 1, and so on
/// says, where 16 is the end of what is accepted.
fn assert_checked(key: &[u8], book: &[u8], name: &str) -> u32 {
    let mut out = [0; ROOM];
    let mut units = 0;
    let end = loop {
        match fetch(key, book, units, &mut out) {
            Ok(_) => units += 1,
            Err(end) => break end,
        }
    };
    match check(key, book) {
        Ok(checked) => assert_eq!((checked.units, Refusal::NoSuchUnit), (units, end), "{name}"),
        Err(refusal) => assert_eq!(refusal, end, "{name}"),
    }
    end.number()
}

/// Random books of all suites with one to three changes.
#[test]
fn random_damage() {
    let mut random = Random::new(SEED + 12);
    let (mut counts, mut ends) = ([0; 17], [0; 17]);
    for case in 0..400 {
        let units = random.below(6);
        let suite = random.one_of(&SUITES);
        let book = random_book(&mut random, suite, units, 40);
        let other = Book {
            key: book.key,
            ..random_book(&mut random, suite, 3, 40)
        };
        let ((bytes, _), (other, _)) = (written(&book), written(&other));
        for _ in 0..12 {
            let mut damaged = bytes.clone();
            for _ in 0..1 + random.below(3) {
                damage(&mut random, &mut damaged, &other);
            }
            let name = format!("case {case}, seed {:X}", SEED + 12);
            let (k, out_len) = (random.below(units + 2) as u64, random.below(100));
            let answer = fetched(&book.key, &damaged, Walked(k), out_len, &name);
            if answer.is_ok() {
                assert_eq!(answer, of_book(&book, k), "{name}");
            }
            counts[answer.err().unwrap_or(0) as usize] += 1;
            ends[assert_checked(&book.key, &damaged, &name) as usize] += 1;
        }
    }
    for number in [0, 1, 7, 8, 11, 14, 15, 16] {
        assert!(counts[number] > 5, "{counts:?}");
    }
    for number in [1, 8, 11, 14, 15, 16] {
        assert!(ends[number] > 5, "{ends:?}");
    }
}

/// Frames of which most seals are broken, and random bytes behind an opening and without one.
#[test]
fn random_frames() {
    let mut random = Random::new(SEED + 13);
    let mut counts = [0; 17];
    for case in 0..4_000 {
        let suite = random.one_of(&SUITES);
        let book = some_book(&mut random, suite);
        let name = format!("case {case}, seed {:X}", SEED + 13);
        let mut bytes = some_frames(&mut random, &book);
        if case % 20 == 0 {
            let from = random.one_of(&[0, 16]).min(bytes.len());
            random.fill(&mut bytes[from..]);
        }
        let k = random.one_of(&[0, 1, 2, 3, 4, 5, 1 << 16, u64::MAX]);
        let out_len = random.below(60);
        let answer = fetched(&book.key, &bytes, Walked(k), out_len, &name);
        counts[answer.err().unwrap_or(0) as usize] += 1;
        assert_checked(&book.key, &bytes, &name);
    }
    for number in [0, 1, 7, 8, 11, 12, 14, 15, 16] {
        assert!(counts[number] > 20, "{counts:?}");
    }
}
