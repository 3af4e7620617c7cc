//! What a book says in the clear: suite and number, and of each unit the languages, where its ciphertext
//! stands and where the next unit begins, walked to and at a place. No seal is looked at.

mod common;

use common::causes::{first_is_given, sets};
use common::clearing::{info, refuses, unit, unit_gives, Answer};
use common::fetching::{
    fetched,
    Which::{self, Placed, Walked},
    ROOM,
};
use common::parts::{
    books_of_each_kind, close_fields, random_book, some_book, three_units, unit_fields, written,
    Parts,
};
use common::spoiled::{spoiled, Cause, Cause::*, UNIT_FRAME, WALK};
use common::spoiling::{bad_openings, damage, some_frames, some_places, too_many, SOME_NUMBERS};
use common::writing;
use reference::book::{field, places, Book, Kind};
use reference::cipher::{listed, SUITES};
use reference::clear::{Clear, Info};
use reference::random::Random;
use reference::vectors::{book_vectors, books_vectors};
use sealed_book::raw::{self, FIRST_UNIT};
use sealed_book::Refusal;

const SEED: u64 = 0x434C_4541;

/// What the units of a book say, as it was written.
fn units_of(book: &Book) -> Vec<Clear> {
    let (places, start) = (places(book), book.kind.ciphertext_at());
    let unit = |(k, unit): (usize, &reference::book::Unit)| Clear {
        at: places[k],
        from: unit.from.to_vec(),
        to: unit.to.to_vec(),
        ciphertext: places[k] + start..places[k] + start + unit.text().len(),
        next: places[k + 1],
    };
    book.units.iter().enumerate().map(unit).collect()
}

/// Each unit, walked to and at its place, and the close; wrong numbers; suite and number.
fn says_all(book: &Book, bytes: &[u8], name: &str) {
    let expected = Info {
        cipher: book.cipher,
        steps: book.steps,
        number: book.number,
    };
    assert_eq!(info(bytes, name), Ok(expected), "reference: {name}");
    let units = units_of(book);
    for (k, expected) in units.iter().enumerate() {
        for which in [Walked(k as u64), Placed(k as u64, expected.at)] {
            let answer = unit(bytes, which, name);
            assert_eq!(
                answer.as_ref(),
                Ok(expected),
                "reference: {which:?}, {name}"
            );
        }
        for number in [k + 1, k ^ 1, k + 0x1_0000, k + 0x100_0000, usize::MAX] {
            let number = number as u64;
            let refusal = if number < 16_777_215 { 15 } else { 13 };
            refuses(bytes, Placed(number, expected.at), refusal, name);
        }
    }
    let count = units.len() as u64;
    let close = *places(book).last().expect("the close");
    refuses(bytes, Placed(count, close), 16, name);
    for more in [0x1_0000, 0x100_0000, 1 << 32] {
        refuses(bytes, Placed(count + more, close), 15, name);
    }
    for number in [count + 1, count ^ 1, u64::MAX] {
        refuses(bytes, Placed(number, close), 15, name);
    }
    for k in [count, count + 1, 65_536, 16_777_215, 1 << 32, u64::MAX] {
        refuses(bytes, Walked(k), 16, name);
    }
}

#[test]
fn book_vectors_hold() {
    let mut units = 0;
    for v in book_vectors().into_iter().chain(books_vectors()) {
        let name = format!("line {}", v.line);
        let key = v.key[..].try_into().expect("16 bytes");
        if let Some(book) = Book::taken_apart(&key, &v.book) {
            says_all(&book, &v.book, &name);
            units += book.units.len();
        }
        assert!(info(&v.book, &name).is_ok() || v.answer.is_err(), "{name}");
        for k in 0..5 {
            unit(&v.book, Walked(k), &name).ok();
        }
    }
    assert_eq!(units, 14 + 37);
}

/// Known value 8, as printed, and as the writer makes it.
#[test]
fn known_book() {
    for (kind, part, close) in [(Kind::Tag10, 28..41, 60), (Kind::Tag14, 30..43, 62)] {
        let book = Book::known(kind, [9; 16]);
        let (bytes, _) = written(&book);
        says_all(&book, &bytes, "known value 8");
        let known = raw::Info {
            cipher: 1,
            steps: 10,
            number: 7,
        };
        assert_eq!(raw::info(&bytes), Ok(known));
        let unit = raw::unit(&bytes, 0).expect("unit 0");
        assert_eq!((unit.from.as_str(), unit.to.as_str()), ("en", "de"));
        assert_eq!((unit.at, unit.ciphertext.clone()), (16, part));
        assert_eq!(unit.next, close);
        assert_eq!(raw::unit_at(&bytes, 0, FIRST_UNIT), Ok(unit));
        assert_eq!(raw::unit_at(&bytes, 1, close), Err(Refusal::NoSuchUnit));
    }
}

#[test]
fn random_books() {
    let mut random = Random::new(SEED);
    for suite in SUITES {
        for units in [0, 1, 2, 9] {
            let book = random_book(&mut random, suite, units, 50);
            let (bytes, _) = written(&book);
            says_all(&book, &bytes, &format!("{units} units, seed {SEED:X}"));
        }
        let mut book = some_book(&mut random, suite);
        for (s, t) in [(1, 0), (4_096, 4_096), (1, 4_096), (4_096, 0), (254, 0)] {
            book.units.push(writing::unit(&mut random, s, t));
        }
        let (bytes, _) = written(&book);
        says_all(&book, &bytes, &format!("long units, seed {SEED:X}"));
    }
}

/// From one unit to the next by what is said of it, in books of some thousand units; fetching there says
/// the same of the next one.
#[test]
fn from_unit_to_unit() {
    let mut random = Random::new(SEED + 1);
    for mut book in books_of_each_kind(&mut random, (1, 6)) {
        book.units = random_book(&mut random, (1, 6), 3_000, 12).units;
        let (bytes, _) = written(&book);
        let mut out = [0; ROOM];
        let mut at = FIRST_UNIT;
        for (k, expected) in units_of(&book).into_iter().enumerate() {
            let unit = raw::unit_at(&bytes, k as u64, at).expect("a unit");
            assert_eq!(
                (unit.at, unit.ciphertext),
                (expected.at, expected.ciphertext)
            );
            let fetched = raw::fetch_at(&book.key, &bytes, k as u64, at, &mut out);
            assert_eq!(fetched.expect("a unit").next, unit.next, "unit {k}");
            at = unit.next;
        }
        assert_eq!(at, bytes.len() - book.kind.close_len());
        assert_eq!(raw::unit_at(&bytes, 3_000, at), Err(Refusal::NoSuchUnit));
    }
}

/// Every place of a small book and many past its end, under several numbers.
#[test]
fn every_place() {
    let mut random = Random::new(SEED + 3);
    for suite in SUITES {
        let mut book = random_book(&mut random, suite, 2, 9);
        // no byte of the number may be taken for a field
        book.number = 0x4142_4344_4546_4748;
        let (bytes, _) = written(&book);
        let (places, units) = (places(&book), units_of(&book));
        let len = bytes.len();
        for at in some_places(len, &places) {
            for number in SOME_NUMBERS {
                let name = format!("seed {:X}", SEED + 3);
                let answer = unit(&bytes, Placed(number, at), &name);
                let expected = match places.iter().position(|place| *place == at) {
                    Some(2) if number == 2 => Err(16),
                    Some(2) => Err(15),
                    Some(k) if number == k as u64 => Ok(units[k].clone()),
                    Some(_) if number >= 16_777_215 => Err(13),
                    Some(_) => Err(15),
                    None if at < FIRST_UNIT || at >= len => Err(14),
                    // some byte of a unit, which may be a field's tag
                    None => continue,
                };
                assert_eq!(answer, expected, "unit {number} at {at}, {name}");
            }
        }
    }
}

/// Every number that fits into two bytes, and some that do not, at a unit and at the close.
#[test]
fn every_number() {
    let mut random = Random::new(SEED + 4);
    for mut book in books_of_each_kind(&mut random, (1, 6)) {
        book.units = random_book(&mut random, (1, 6), 2, 9).units;
        let (bytes, _) = written(&book);
        let units = units_of(&book);
        let [_, second, close] = places(&book)[..] else {
            panic!("two units");
        };
        let wide = [0x1_0001, 0x1_0002, 0x100_0001, (1 << 32) + 1, u64::MAX];
        let limit = [16_777_214, 16_777_215, 16_777_216];
        for number in (0..=0x1_0000).chain(wide).chain(limit) {
            let expected = match number {
                1 => Ok(units[1].clone()),
                16_777_215.. => Err(13),
                _ => Err(15),
            };
            unit_gives(&bytes, Placed(number, second), &expected, "a unit");
            let expected = if number == 2 { Err(16) } else { Err(15) };
            unit_gives(&bytes, Placed(number, close), &expected, "the close");
        }
        // the last number that a unit can have, and one more
        let most = book.kind.most_units();
        let more = match book.kind {
            Kind::Tag10 => None,
            Kind::Tag14 => Some(13),
        };
        for (number, expected) in [(most - 1, None), (most, more)] {
            let last = unit_fields(&book, number, number, *b"ende", &[0, 1, 7]).concat();
            let bytes = [&bytes[..FIRST_UNIT], &last].concat();
            let answer = unit(&bytes, Placed(number as u64, FIRST_UNIT), "the last");
            let expected = expected.map_or(Ok(bytes.len()), Err);
            assert_eq!(answer.map(|unit| unit.next), expected);
        }
    }
}

/// Every byte of a small book changed, to every value: what is said of a unit is as written where the byte
/// stands behind it, or is one of the sealed ones; and where it is not as written, it is the reference's.
#[test]
fn changed_bytes() {
    let mut random = Random::new(SEED + 5);
    let book = random_book(&mut random, (2, 8), 2, 8);
    let (bytes, _) = written(&book);
    let (units, places) = (units_of(&book), places(&book));
    let mut changed = bytes.clone();
    for at in 0..bytes.len() {
        for byte in 0..=255 {
            changed[at] = byte;
            let name = format!("byte {at} {byte:02X}");
            let said = info(&changed, &name).err();
            let expected = match at {
                0..3 | 11..14 if byte != bytes[at] => Some(14),
                14..16 if !listed(changed[14], changed[15]) => Some(1),
                _ => None,
            };
            assert_eq!(said, expected, "{name}");
            let sealed = |k: usize| {
                let (part, end) = (&units[k].ciphertext, places[k + 1]);
                part.contains(&at) || (end - raw::TAG_LEN..end).contains(&at)
            };
            for k in 0..4 {
                let walked = unit(&changed, Walked(k as u64), &name);
                let expected = units.get(k).cloned().ok_or(16);
                let behind = places.get(k + 1).is_some_and(|end| *end <= at);
                let of_the_close = at >= bytes.len() - raw::TAG_LEN;
                if (3..11).contains(&at) || behind || (0..2).any(sealed) || of_the_close {
                    assert_eq!(walked, expected, "{name}");
                }
                if let Some(place) = places.get(k) {
                    let placed = unit(&changed, Placed(k as u64, *place), &name);
                    // of what stands before the place, only the first byte is looked at, which says the kind
                    if (FIRST_UNIT + 1..*place).contains(&at) {
                        assert_eq!(placed, expected, "{name}");
                    } else if at != FIRST_UNIT || k == 0 {
                        assert_eq!(placed, walked, "{name}");
                    } else if Kind::read_as(&changed) == book.kind {
                        assert_eq!(placed, expected, "{name}");
                    } else {
                        assert_eq!(placed, Err(14), "{name}");
                    }
                }
            }
        }
        changed[at] = bytes[at];
    }
}

/// The start of a book alone, and bytes behind it: a unit is there as soon as it is whole, and so is the
/// close, whatever stands behind it.
#[test]
fn cut_and_lengthened() {
    let mut random = Random::new(SEED + 6);
    for suite in SUITES {
        let book = random_book(&mut random, suite, 3, 30);
        let (bytes, _) = written(&book);
        let (units, places) = (units_of(&book), places(&book));
        for len in 0..=bytes.len() {
            let (start, name) = (&bytes[..len], format!("{len} bytes"));
            assert_eq!(info(start, &name).is_ok(), len >= 16, "{name}");
            for k in 0..5 {
                let expected = match units.get(k) {
                    Some(unit) if unit.next <= len => Ok(unit.clone()),
                    None if len == bytes.len() => Err(16),
                    _ => Err(14),
                };
                assert_eq!(
                    unit(start, Walked(k as u64), &name),
                    expected,
                    "{k}, {name}"
                );
                if let Some(at) = places.get(k) {
                    let placed = unit(start, Placed(k as u64, *at), &name);
                    assert_eq!(placed, expected, "{k}, {name}");
                }
            }
        }
        for more in [&[0][..], &[0x10], &[0x14], &[0x20], &[0x21], &bytes] {
            let longer = [&bytes[..], more].concat();
            says_all(&book, &longer, "bytes left over");
        }
    }
}

/// A case of these causes, at a place or behind a walk. Those that need the key, the output or a seal are
/// there besides, every second time, and make no difference.
fn case(random: &mut Random, set: &[Cause], placed: bool, name: &str) -> Answer {
    let unseen = match set.contains(&NoUnit) {
        true => &[Key, CloseTag, LeftOver][..],
        false => &[Key, UnitTag, Lengths, Room],
    };
    let unseen = unseen.iter().filter(|_| random.below(2) == 0);
    let set = [set, &unseen.copied().collect::<Vec<_>>()].concat();
    let mut case = spoiled(random, &set);
    let which = match placed {
        true => Placed(case.running, case.place),
        false => Walked(case.k),
    };
    if placed && !set.contains(&OpeningFields) {
        // not one byte between the first, which says the kind, and the place is looked at
        random.fill(&mut case.book[FIRST_UNIT + 1..case.place]);
    }
    let expected = [(OpeningFields, 14), (Suite, 1)];
    let expected = expected.iter().find(|(cause, _)| set.contains(cause));
    let said = info(&case.book, name).err();
    assert_eq!(said, expected.map(|(_, number)| *number), "info, {name}");
    unit(&case.book, which, name)
}

/// Every set of causes, in their order: the first is given.
#[test]
fn every_set_of_causes() {
    let opening = [OpeningFields, Suite];
    let of_close = [CloseFields, Count];
    for (seed, walk, placed) in [(SEED + 7, &WALK[..], false), (SEED + 8, &[], true)] {
        let of_unit = sets(&[&opening[..], walk, &UNIT_FRAME].concat());
        let counts = first_is_given(seed, &of_unit, 3, |random, set, name| {
            case(random, set, placed, name)
        });
        assert_eq!(counts[0], 3);
        let mut without = sets(&[&opening[..], walk, &of_close].concat());
        for set in &mut without {
            set.push(NoUnit);
        }
        let counts = first_is_given(seed, &without, 5, |random, set, name| {
            case(random, set, placed, name)
        });
        assert_eq!(counts[16], 5);
    }
}

#[test]
fn too_many_units() {
    let mut random = Random::new(SEED + 9);
    for mut book in books_of_each_kind(&mut random, (2, 8)) {
        book.units = random_book(&mut random, (2, 8), 1, 9).units;
        let (mut bytes, _) = written(&book);
        for (at, byte, number) in too_many(book.kind) {
            let before = std::mem::replace(&mut bytes[at], byte);
            for unit in [16_777_215, 16_777_216, u64::MAX] {
                refuses(&bytes, Placed(unit, FIRST_UNIT), number, "a unit");
            }
            bytes[at] = before;
        }
    }
}

/// The opening fields are looked at first, wherever the place is; all pairs of a cipher's byte and a steps
/// byte.
#[test]
fn opening_fields_first() {
    let mut random = Random::new(SEED + 10);
    let book = random_book(&mut random, (1, 10), 1, 9);
    let (bytes, _) = written(&book);
    for at in [
        0,
        3,
        16,
        bytes.len() - book.kind.close_len(),
        bytes.len(),
        usize::MAX,
    ] {
        for (changed, number) in bad_openings(&bytes) {
            refuses(&changed, Placed(0, at), number, "an opening");
        }
    }
    let unit = units_of(&book).remove(0);
    let mut changed = bytes.clone();
    for (cipher, steps) in (0..=255).flat_map(|c| (0..=255).map(move |s| (c, s))) {
        (changed[14], changed[15]) = (cipher, steps);
        let expected = match listed(cipher, steps) {
            true => Ok(unit.clone()),
            false => Err(1),
        };
        let said = info(&changed, "every suite").map(|info| (info.cipher, info.steps));
        assert_eq!(said, expected.clone().map(|_| (cipher, steps)));
        unit_gives(&changed, Walked(0), &expected, "every suite");
    }
}

/// Extremes of the book number, and each bit of it.
#[test]
fn book_numbers() {
    let mut random = Random::new(SEED + 11);
    let bits = (0..64).map(|bit| 1 << bit);
    for number in bits.chain([0, u64::MAX, 0x0102_0304_0506_0708]) {
        let mut book = some_book(&mut random, (2, 14));
        book.number = number;
        let (bytes, _) = written(&book);
        let said = info(&bytes, "a book number").map(|info| info.number);
        assert_eq!(said, Ok(number));
    }
}

/// A whole unit and a close that stand inside a field 11: said where they are looked for, and not by the
/// walk.
#[test]
fn inside_a_ciphertext() {
    let mut random = Random::new(SEED + 12);
    let book = three_units(&mut random, (1, 8));
    let mut parts = Parts::of(&book);
    let inner = unit_fields(&book, 700, 700, *b"enga", &[0, 1, 7, 8]).concat();
    let close = close_fields(&book, 701, 701).concat();
    let value = [&[1, 2, 3][..], &inner, &close].concat();
    let [head, ..] = unit_fields(&book, 1, 1, *b"abcd", &[]);
    parts.units[1] = [head, field(0x11, &value), field(0x12, &[0; 16])].concat();
    let bytes = parts.joined();
    let start = book.kind.ciphertext_at();
    let at = places(&book)[1] + start + 3;
    let end = at + inner.len();
    let expected = Clear {
        at,
        from: b"en".to_vec(),
        to: b"ga".to_vec(),
        ciphertext: at + start..at + start + 4,
        next: end,
    };
    assert_eq!(unit(&bytes, Placed(700, at), "inside"), Ok(expected));
    refuses(&bytes, Placed(1, at), 15, "inside");
    refuses(&bytes, Placed(701, end), 16, "inside");
    refuses(&bytes, Placed(700, end), 15, "inside");
    let around = unit(&bytes, Walked(1), "around it").expect("a unit");
    assert_eq!((&around.from[..], &around.to[..]), (&b"ab"[..], &b"cd"[..]));
    assert_eq!(around.ciphertext.len(), value.len());
    assert!(unit(&bytes, Walked(2), "behind it").is_ok());
    refuses(&bytes, Walked(3), 16, "behind it");
}

/// What fetching says of these bytes is said here, too, up to the seal.
fn as_fetching(book: &Book, bytes: &[u8], which: Which, answer: &Answer, name: &str) {
    let number = fetched(&book.key, bytes, which, 0, name).expect_err("there is no room");
    match (number, answer) {
        (7 | 12, answer) => assert!(answer.is_ok(), "{name}"),
        // of the unit, or of the close
        (8, answer) => assert!(matches!(answer, Ok(_) | Err(16)), "{name}"),
        // of the fields, or of bytes left over behind the close
        (14, answer) => assert!(matches!(answer, Err(14 | 16)), "{name}"),
        (number, answer) => assert_eq!(answer.as_ref().err(), Some(&number), "{name}"),
    }
}

/// Damaged books, frames of which most seals are broken, and random bytes.
#[test]
fn random_damage() {
    let mut random = Random::new(SEED + 13);
    let mut counts = [0; 17];
    for case in 0..6_000 {
        let suite = random.one_of(&SUITES);
        let book = random_book(&mut random, suite, 3, 20);
        let name = format!("case {case}, seed {:X}", SEED + 13);
        let (mut bytes, _) = written(&book);
        if case % 2 == 0 {
            let other = bytes.clone();
            for _ in 0..1 + random.below(3) {
                damage(&mut random, &mut bytes, &other);
            }
        } else {
            bytes = some_frames(&mut random, &book);
        }
        if case % 20 == 1 {
            let from = random.one_of(&[0, 16]).min(bytes.len());
            random.fill(&mut bytes[from..]);
        }
        info(&bytes, &name).ok();
        let k = random.one_of(&[0, 1, 2, 3, 4, 16_777_215, u64::MAX]);
        let at = match random.below(3) {
            0 => random.below(bytes.len() + 3),
            _ => random.one_of(&places(&book)),
        };
        for which in [Walked(k), Placed(k, at)] {
            let answer = unit(&bytes, which, &name);
            if case % 3 == 0 {
                as_fetching(&book, &bytes, which, &answer, &name);
            }
            counts[answer.err().unwrap_or(0) as usize] += 1;
        }
    }
    for number in [0, 1, 11, 13, 14, 15, 16] {
        assert!(counts[number] > 5, "{counts:?}");
    }
}
