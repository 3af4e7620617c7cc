//! Refusals of checking: each cause at each of its places, and of several causes the first.

mod common;

use std::fs;
use std::path::Path;
use std::process::Command;

use common::causes::{first_is_given, sets, small_sets, Cause as _};
use common::checking::{accepts, check_gives, checked, refuses, Answer};
use common::parts::{
    books_of_each_kind, close_fields, number_in, random_book, some_book, unit_fields, written,
    Parts,
};
use common::refused::{first_of_each_set, random_case, spoiled, Cause, Cause::*, CAUSES};
use common::spoiling::{text, LONG_TEXTS};
use common::writing::unit;
use common::{codes_with_each_byte, hex, CODES_OF_LETTERS};
use reference::book::{Book, Kind};
use reference::cipher::{listed, SUITES};
use reference::random::Random;

const SEED: u64 = 0x4352_4546;

/// Such a case, checked.
fn case(random: &mut Random, set: &[Cause], name: &str) -> Answer {
    let (key, book) = random_case(random, set);
    checked(&key, &book, name)
}

#[test]
fn every_set_of_causes() {
    let counts = first_is_given(SEED, &sets(&CAUSES), 1, case);
    assert_eq!(counts, first_of_each_set());
}

#[test]
fn each_cause_and_each_two() {
    let sets = small_sets(&CAUSES);
    assert_eq!(sets.len(), 1 + 13 + 13 * 12 / 2);
    first_is_given(SEED + 1, &sets, 30, case);
}

/// A case as a line for the reader in Python: the key, the book and the answer.
fn line(key: &[u8], book: &[u8], answer: Answer) -> String {
    let answer = match answer {
        Ok((units, calls)) => format!("ok:{units}:{calls}"),
        Err(number) => format!("refused:{number}"),
    };
    format!("{} {} {answer}\n", hex(key), hex(book))
}

/// The reader that was written from docs/FORMAT.md and docs/REFUSALS.md alone gives the same answers.
#[test]
fn a_reader_from_the_page() {
    let sets = small_sets(&CAUSES);
    let mut lines = String::new();
    first_is_given(SEED + 3, &sets, 2, |random, set, name| {
        let (key, book) = random_case(random, set);
        let answer = checked(&key, &book, name);
        lines += &line(&key, &book, answer);
        answer
    });
    let cases = Path::new(env!("CARGO_TARGET_TMPDIR")).join("cases.txt");
    fs::write(&cases, &lines).expect("the cases are written");
    let reader = Path::new(env!("CARGO_MANIFEST_DIR")).join("../format/reader.py");
    let run = Command::new("python3").arg(reader).arg(&cases).output();
    let said = run.expect("python3 runs").stdout;
    let expected = format!("{} cases, 0 differ\n", lines.lines().count());
    assert_eq!(String::from_utf8_lossy(&said), expected);
}

/// Behind 65,536 units of an old book, the last of which no earlier writer left: a unit 65,536 has no number in two
/// bytes, and gets 15 before all but a malformed head, and never 13.
#[test]
fn causes_in_a_full_book() {
    let mut random = Random::new(SEED + 2);
    let mut book = Book::random(&mut random, (1, 6));
    book.kind = Kind::Tag10;
    book.units = (0..65_535).map(|_| unit(&mut random, 1, 0)).collect();
    let mut before = Parts::of(&book);
    let last = unit(&mut random, 1, 0);
    before.units.push(book.unit(book.kind, 65_535, &last).0);
    for set in [
        &[FullBook][..],
        &[FullBook, UnitNumber],
        &[FullBook, Languages],
        &[FullBook, UnitRest],
        &[FullBook, UnitTag],
        &[FullBook, Lengths],
        &[UnitHead, FullBook],
        &[Suite, FullBook],
        &[OpeningFields, FullBook],
        &[Key, FullBook],
    ] {
        let (key, book) = spoiled(&mut random, &book, &before, set);
        let name = format!("causes {set:?}, seed {:X}", SEED + 2);
        check_gives(&key, &book, Err(set[0].number()), &name);
    }
}

/// All 65,536 pairs of a cipher's byte and a steps byte in field 02.
#[test]
fn every_suite() {
    let mut random = Random::new(SEED + 3);
    let book = random_book(&mut random, (2, 10), 1, 20);
    let (mut bytes, writer) = written(&book);
    for cipher in 0..=255 {
        for steps in 0..=255 {
            (bytes[14], bytes[15]) = (cipher, steps);
            match (cipher, steps) {
                (2, 10) => accepts(&book.key, &bytes, 1, writer.calls, ""),
                _ if listed(cipher, steps) => refuses(&book.key, &bytes, 8, "another suite"),
                _ => refuses(&book.key, &bytes, 1, "unlisted"),
            }
        }
    }
}

#[test]
fn every_key_length() {
    let mut random = Random::new(SEED + 4);
    let book = random_book(&mut random, (1, 12), 2, 20);
    let (bytes, writer) = written(&book);
    for len in 0..=300 {
        let mut key = random.some_bytes(len);
        let start = len.min(16);
        key[..start].copy_from_slice(&book.key[..start]);
        match len {
            16 => accepts(&key, &bytes, 2, writer.calls, ""),
            _ => refuses(&key, &bytes, 2, ""),
        }
        if len != 16 {
            refuses(&key, &[], 2, "no book");
        }
    }
}

/// Every byte at every place of the two codes, sealed along: a letter is all that is asked for.
#[test]
fn every_byte_in_a_code() {
    let mut random = Random::new(SEED + 5);
    let (mut passed, mut equal) = (0, 0);
    for (byte, codes) in codes_with_each_byte() {
        let book = some_book(&mut random, (1, 6));
        let mut parts = Parts::of(&book);
        parts.units = vec![unit_fields(&book, 0, 0, codes, &[0, 1, 2]).concat()];
        parts.close = close_fields(&book, 1, 1).concat();
        let bytes = parts.joined();
        if byte.is_ascii_lowercase() {
            accepts(&book.key, &bytes, 1, 7, "letters");
            passed += 1;
            equal += usize::from(codes[..2] == codes[2..]);
        } else {
            refuses(&book.key, &bytes, 11, "no letter");
        }
    }
    assert_eq!((passed, equal), CODES_OF_LETTERS);
}

/// Where each field begins and ends: those before the close in a book with a unit of 11 bytes, and those of
/// the close in a book with no unit.
fn fields_of(kind: Kind) -> ([(usize, usize); 5], [(usize, usize); 2]) {
    match kind {
        Kind::Tag10 => (
            [(0, 11), (11, 16), (16, 25), (25, 41), (41, 60)],
            [(16, 21), (21, 40)],
        ),
        Kind::Tag14 => (
            [(0, 11), (11, 16), (16, 27), (27, 43), (43, 62)],
            [(16, 23), (23, 42)],
        ),
    }
}

/// Every length in the head of each field, and every tag, in books that would get 8 next.
#[test]
fn every_field_head() {
    let mut random = Random::new(SEED + 6);
    for mut book in books_of_each_kind(&mut random, (1, 6)) {
        let (of_unit, of_close) = fields_of(book.kind);
        let (mut empty, _) = written(&book);
        book.units.push(unit(&mut random, 5, 6));
        let (mut one, _) = written(&book);
        empty[of_close[1].1 - 1] ^= 1;
        one[of_unit[4].1 - 1] ^= 1;
        refuses(&book.key, &empty, 8, "the close's tag changed");
        refuses(&book.key, &one, 8, "the unit's tag changed");
        let places = of_unit.map(|place| (&one, place)).into_iter();
        for (bytes, (at, end)) in places.chain(of_close.map(|place| (&empty, place))) {
            let mut changed = bytes.clone();
            for len in 0..=65_535u16 {
                changed[at + 1..at + 3].copy_from_slice(&len.to_be_bytes());
                // a ciphertext that ends before the close's tag is framed, and not that tag's
                let longer = 13 + 19 + of_close[0].1 - of_close[0].0;
                let framed = at == of_unit[3].0 && usize::from(len) == longer;
                let number = if framed { 8 } else { 14 };
                if usize::from(len) != end - at - 3 {
                    let name = format!("field at {at}, length {len}");
                    refuses(&book.key, &changed, number, &name);
                }
            }
            let mut changed = bytes.clone();
            for tag in 0..=255 {
                changed[at] = tag;
                if tag != bytes[at] {
                    refuses(
                        &book.key,
                        &changed,
                        14,
                        &format!("field at {at}, tag {tag:02X}"),
                    );
                }
            }
        }
    }
}

/// Every number of two bytes in a unit's head and every count in the close's, and of a wide one many of four.
#[test]
fn every_number() {
    let mut random = Random::new(SEED + 7);
    let wide = (0..=65_535).map(|number| number << 16);
    let wide: Vec<usize> = wide.flat_map(|high| [high, high + 1]).collect();
    for (units, kind) in [0, 1]
        .into_iter()
        .flat_map(|n| Kind::ALL.map(|kind| (n, kind)))
    {
        let mut book = random_book(&mut random, (1, 6), units + 1, 3);
        book.kind = kind;
        let parts = Parts::of(&book);
        let start = [&parts.opening[..], &parts.units[..units].concat()].concat();
        let end = 3 + kind.number_bytes();
        let more = if kind == Kind::Tag14 { &wide[..] } else { &[] };
        for number in (0..=65_535).chain(more.iter().copied()) {
            let digits = number_in(kind, number);
            let mut rest = parts.units[units].clone();
            rest[3..end].copy_from_slice(&digits);
            let mut close = parts.close.clone();
            close[3..end].copy_from_slice(&digits);
            if number != units {
                let name = format!("number {number}");
                check_gives(&book.key, &[&start[..], &rest].concat(), Err(15), &name);
                check_gives(&book.key, &[&start[..], &close].concat(), Err(15), &name);
            } else {
                refuses(&book.key, &[&start[..], &rest].concat(), 14, "no close");
                refuses(
                    &book.key,
                    &[&start[..], &close].concat(),
                    8,
                    "another count's tag",
                );
            }
        }
    }
}

/// What the library and the reference say of a book with one unit of this text, sealed.
fn of_text(random: &mut Random, text: &[u8], name: &str) -> Answer {
    let suite = random.one_of(&SUITES);
    let book = some_book(random, suite);
    let mut parts = Parts::of(&book);
    parts.units = vec![unit_fields(&book, 0, 0, *b"ende", text).concat()];
    parts.close = close_fields(&book, 1, 1).concat();
    checked(&book.key, &parts.joined(), name)
}

/// Texts with every s, of every length up to 40: 14 where the text is too short for a unit.
#[test]
fn every_short_text() {
    let mut random = Random::new(SEED + 8);
    for len in 0..2 {
        let text = random.some_bytes(len);
        assert_eq!(of_text(&mut random, &text, "too short"), Err(14));
    }
    for after in 0..=40 {
        for s in (0..=after + 3).chain([256, 256 + after, 4_096, 0x8001, 0xFFFF]) {
            let text = text(&mut random, s, after);
            let answer = of_text(&mut random, &text, &format!("s {s} with {after} after it"));
            let expected = match s {
                _ if after == 0 => Err(14),
                _ if s == 0 || s > after => Err(12),
                _ => Ok((1, 6 + text.len().div_ceil(16) as u64)),
            };
            assert_eq!(answer, expected, "reference: s {s} with {after} after it");
        }
    }
}

/// Long texts: s and t at their limits, and a text at its limit.
#[test]
fn long_texts() {
    let mut random = Random::new(SEED + 9);
    for (s, after, number) in LONG_TEXTS {
        let text = text(&mut random, s, after);
        let name = format!("s {s} with {after} after it");
        let answer = of_text(&mut random, &text, &name);
        assert_eq!(answer.err(), number, "reference: {name}");
    }
}

/// Every byte behind the opening fields and behind a unit: a close has to begin with 20 or 21, a unit with 10 or
/// 14, as its kind says.
#[test]
fn every_next_byte() {
    let mut random = Random::new(SEED + 10);
    for (units, kind) in [0, 1]
        .into_iter()
        .flat_map(|n| Kind::ALL.map(|kind| (n, kind)))
    {
        let mut book = random_book(&mut random, (1, 6), units, 20);
        book.kind = kind;
        let (whole, writer) = written(&book);
        let (start, close) = whole.split_at(whole.len() - kind.close_len());
        for byte in 0..=255 {
            let behind = [start, &[byte]].concat();
            refuses(&book.key, &behind, 14, &format!("{byte:02X} alone"));
            let as_close = [start, &[byte], &close[1..]].concat();
            match byte == kind.close_tag() {
                true => accepts(&book.key, &as_close, units as u64, writer.calls, ""),
                false => refuses(
                    &book.key,
                    &as_close,
                    14,
                    &format!("{byte:02X} and a close's rest"),
                ),
            }
        }
        refuses(&book.key, start, 14, "nothing");
    }
}
