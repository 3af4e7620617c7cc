//! Refusals of fetching: each cause at each of its places, of several causes the first, and what is not
//! looked at on the way to a unit.

mod common;

use common::causes::{first_is_given, sets, small_sets, Cause as _};
use common::fetching::{
    fetch_gives, fetched, fetches, of_book, refuses, Answer, Which::Walked, ROOM,
};
use common::parts::{
    books_of_each_kind, close_fields, number_in, random_book, unit_fields, written, Parts,
};
use common::spoiled::{spoiled, Cause, Cause::*, CLOSE, UNIT_FRAME, WALK};
use common::spoiling::{text, LONG_TEXTS};
use common::{codes_with_each_byte, CODES_OF_LETTERS, UNLISTED};
use reference::book::{places, Book, Kind, Unit};
use reference::cipher::{listed, SUITES};
use reference::random::Random;

const SEED: u64 = 0x4652_4546;

/// The causes where there is a unit k.
fn of_unit() -> Vec<Cause> {
    let opening = [Key, OpeningFields, Suite];
    [&opening, &WALK[..], &UNIT_FRAME, &[UnitTag, Lengths, Room]].concat()
}

/// Every set of the causes where there is no unit k, with 16 behind them.
fn sets_without_unit() -> Vec<Vec<Cause>> {
    let opening = [Key, OpeningFields, Suite];
    let mut sets = sets(&[&opening, &WALK[..], &CLOSE].concat());
    for set in &mut sets {
        set.push(NoUnit);
    }
    sets
}

fn case(random: &mut Random, set: &[Cause], name: &str) -> Answer {
    let case = spoiled(random, set);
    fetched(&case.key, &case.book, Walked(case.k), case.out_len, name)
}

/// How often each number is given, if it is the first of each set's causes; at 0 for an empty set.
fn numbers_of(sets: &[Vec<Cause>]) -> [usize; 17] {
    let mut counts = [0; 17];
    for set in sets {
        counts[set.first().map_or(0, |cause| cause.number()) as usize] += 1;
    }
    counts
}

#[test]
fn every_set_of_causes_at_a_unit() {
    let sets = sets(&of_unit());
    assert_eq!(sets.len(), 1 << 14);
    let counts = first_is_given(SEED, &sets, 1, case);
    assert_eq!(counts, numbers_of(&sets));
}

#[test]
fn every_set_of_causes_without_a_unit() {
    let sets = sets_without_unit();
    assert_eq!(sets.len(), 1 << 11);
    let counts = first_is_given(SEED + 1, &sets, 1, case);
    assert_eq!(counts, numbers_of(&sets));
}

#[test]
fn each_cause_and_each_two() {
    let sets = small_sets(&of_unit());
    assert_eq!(sets.len(), 1 + 14 + 14 * 13 / 2);
    first_is_given(SEED + 2, &sets, 30, case);
    let mut sets = sets_without_unit();
    sets.retain(|set| set.len() <= 3);
    assert_eq!(sets.len(), 1 + 11 + 11 * 10 / 2);
    first_is_given(SEED + 3, &sets, 30, case);
}

/// All 65,536 pairs of a cipher's byte and a steps byte in field 02.
#[test]
fn every_suite() {
    let mut random = Random::new(SEED + 4);
    let book = random_book(&mut random, (2, 10), 2, 20);
    let (mut bytes, _) = written(&book);
    for cipher in 0..=255 {
        for steps in 0..=255 {
            (bytes[14], bytes[15]) = (cipher, steps);
            for k in [1, 2] {
                let answer = match (cipher, steps) {
                    (2, 10) => of_book(&book, k),
                    _ if listed(cipher, steps) => Err(8),
                    _ => Err(1),
                };
                fetch_gives(&book.key, &bytes, Walked(k), 40, &answer, "");
            }
        }
    }
    for (cipher, steps) in SUITES.into_iter().chain(UNLISTED) {
        (bytes[14], bytes[15]) = (cipher, steps);
        for k in 0..3 {
            let answer = fetched(&book.key, &bytes, Walked(k), 40, "some suites");
            assert_eq!(answer.is_ok(), (cipher, steps) == (2, 10) && k < 2);
        }
    }
}

#[test]
fn every_key_length() {
    let mut random = Random::new(SEED + 5);
    let book = random_book(&mut random, (1, 12), 2, 20);
    let (bytes, _) = written(&book);
    for len in 0..=300 {
        let mut key = random.some_bytes(len);
        let start = len.min(16);
        key[..start].copy_from_slice(&book.key[..start]);
        for k in 0..3 {
            match len {
                16 if k < 2 => fetches(&key, &bytes, Walked(k), &book.units[k as usize], ""),
                16 => refuses(&key, &bytes, Walked(k), 16, ""),
                _ => refuses(&key, &bytes, Walked(k), 2, ""),
            }
        }
        if len != 16 {
            refuses(&key, &[], Walked(0), 2, "no book");
        }
    }
}

/// A book with this as its unit 1, behind unit 0 and before unit 2.
fn with_unit(book: &Book, unit: [Vec<u8>; 3]) -> Vec<u8> {
    let mut parts = Parts::of(book);
    parts.units[1] = unit.concat();
    parts.joined()
}

/// Every byte at every place of the two codes, sealed along, at the unit and in the walk: a letter is all that is
/// asked for.
#[test]
fn every_byte_in_a_code() {
    let mut random = Random::new(SEED + 6);
    let book = random_book(&mut random, (1, 6), 3, 5);
    let one = Unit {
        source: vec![2],
        target: Vec::new(),
        ..book.units[1].clone()
    };
    let (mut passed, mut equal) = (0, 0);
    for (byte, codes) in codes_with_each_byte() {
        let bytes = with_unit(&book, unit_fields(&book, 1, 1, codes, &[0, 1, 2]));
        fetches(&book.key, &bytes, Walked(0), &book.units[0], "before it");
        if byte.is_ascii_lowercase() {
            fetches(&book.key, &bytes, Walked(1), &one, "letters");
            fetches(&book.key, &bytes, Walked(2), &book.units[2], "behind it");
            refuses(&book.key, &bytes, Walked(3), 16, "behind it");
            passed += 1;
            equal += usize::from(codes[..2] == codes[2..]);
        } else {
            for k in 1..4 {
                refuses(&book.key, &bytes, Walked(k), 11, "no letter");
            }
        }
    }
    assert_eq!((passed, equal), CODES_OF_LETTERS);
}

/// Where each field begins and ends: those before the close in a book with a unit of 11 bytes, and then
/// those of the close.
fn fields_of(kind: Kind) -> [(usize, usize); 7] {
    match kind {
        Kind::Tag10 => [
            (0, 11),
            (11, 16),
            (16, 25),
            (25, 41),
            (41, 60),
            (60, 65),
            (65, 84),
        ],
        Kind::Tag14 => [
            (0, 11),
            (11, 16),
            (16, 27),
            (27, 43),
            (43, 62),
            (62, 69),
            (69, 88),
        ],
    }
}

/// Every tag and many lengths in the head of each field: 14 at the unit, and behind it also for the
/// close's fields.
#[test]
fn every_field_head() {
    let mut random = Random::new(SEED + 7);
    let lengths = (0..=300)
        .chain(8_180..=8_200)
        .chain((1..=256).map(|n| 256 * n - 1));
    let lengths: Vec<u16> = lengths.map(|len| len as u16).collect();
    for kind in Kind::ALL {
        let book = Book::known(kind, random.bytes());
        let (bytes, _) = written(&book);
        let fields = fields_of(kind);
        for (at, end) in fields {
            let of_close = at >= fields[5].0;
            let gives = |bytes: &[u8], name: &str| match of_close {
                false => refuses(&book.key, bytes, Walked(0), 14, name),
                true => fetches(&book.key, bytes, Walked(0), &book.units[0], name),
            };
            let mut changed = bytes.clone();
            for len in &lengths {
                let name = format!("field at {at}, length {len}");
                changed[at + 1..at + 3].copy_from_slice(&len.to_be_bytes());
                // a ciphertext that ends before the close's tag is framed, and not that tag's
                let longer = fields[5].1 - fields[3].0 - 3;
                if at == fields[3].0 && usize::from(*len) == longer {
                    refuses(&book.key, &changed, Walked(0), 8, &name);
                    refuses(&book.key, &changed, Walked(1), 14, &name);
                } else if usize::from(*len) != end - at - 3 {
                    gives(&changed, &name);
                    refuses(&book.key, &changed, Walked(1), 14, &name);
                }
            }
            let mut changed = bytes.clone();
            for tag in (0..=255).filter(|tag| *tag != bytes[at]) {
                let name = format!("field at {at}, tag {tag:02X}");
                changed[at] = tag;
                gives(&changed, &name);
                refuses(&book.key, &changed, Walked(1), 14, &name);
            }
        }
    }
}

/// Every number of two bytes in a unit's head, at the unit and in the walk, and every count in the close's; and of
/// a wide one the same in its upper two.
#[test]
fn every_number() {
    let mut random = Random::new(SEED + 8);
    for mut book in books_of_each_kind(&mut random, (1, 6)) {
        book.units = random_book(&mut random, (1, 6), 2, 3).units;
        let kind = book.kind;
        let (bytes, _) = written(&book);
        let [first, second, close] = places(&book)[..] else {
            panic!("two units");
        };
        for (running, at, ks) in [
            (0, first, &[0, 1, 2][..]),
            (1, second, &[1, 2]),
            (2, close, &[2, u64::MAX]),
        ] {
            let mut changed = bytes.clone();
            let upper = (1..=65_535).map(|number| number << 16 | running);
            let upper = upper.filter(|_| kind == Kind::Tag14);
            let numbers = (0..=65_535).filter(|number| *number != running);
            for number in numbers.chain(upper) {
                let end = at + 3 + kind.number_bytes();
                changed[at + 3..end].copy_from_slice(&number_in(kind, number));
                let k = ks[number % ks.len()];
                let name = format!("{number} for {running}");
                fetch_gives(&book.key, &changed, Walked(k), 9, &Err(15), &name);
                if number < 300 {
                    for k in ks {
                        refuses(&book.key, &changed, Walked(*k), 15, &name);
                    }
                    if let Some(before) = ks[0].checked_sub(1) {
                        let unit = &book.units[before as usize];
                        fetches(&book.key, &changed, Walked(before), unit, &name);
                    }
                }
            }
        }
    }
}

/// What is said of a book whose unit 1 has this text, sealed: at the unit, and behind it, where the text
/// is not looked at.
fn of_text(random: &mut Random, text: &[u8], name: &str) -> Answer {
    let suite = random.one_of(&SUITES);
    let book = random_book(random, suite, 3, 5);
    let bytes = with_unit(&book, unit_fields(&book, 1, 1, *b"ende", text));
    if (3..=8_194).contains(&text.len()) {
        fetches(&book.key, &bytes, Walked(2), &book.units[2], name);
        refuses(&book.key, &bytes, Walked(3), 16, name);
    } else {
        refuses(&book.key, &bytes, Walked(2), 14, name);
    }
    let answer = fetched(&book.key, &bytes, Walked(1), ROOM, name);
    if let Err(number) = answer {
        fetch_gives(&book.key, &bytes, Walked(1), 0, &Err(number), name);
    }
    answer
}

/// Texts with many s, of every length up to 20: 14 where the text is too short for a unit.
#[test]
fn every_short_text() {
    let mut random = Random::new(SEED + 9);
    for len in 0..2 {
        let text = random.some_bytes(len);
        assert_eq!(of_text(&mut random, &text, "too short"), Err(14));
    }
    for after in 0..=20 {
        for s in (0..=after + 3).chain([256, 256 + after, 4_096, 0x8001, 0xFFFF]) {
            let text = text(&mut random, s, after);
            let name = format!("s {s} with {after} after it");
            let answer = of_text(&mut random, &text, &name);
            let expected = match s {
                _ if after == 0 => Err(14),
                _ if s == 0 || s > after => Err(12),
                _ => Ok((&text[2..2 + s], &text[2 + s..])),
            };
            let answer = answer
                .as_ref()
                .map(|unit| (&unit.source[..], &unit.target[..]));
            assert_eq!(
                answer.map_err(|number| *number),
                expected,
                "reference: {name}"
            );
        }
    }
}

/// Long texts: s and t at their limits, and a text at its limit.
#[test]
fn long_texts() {
    let mut random = Random::new(SEED + 10);
    for (s, after, number) in LONG_TEXTS {
        let text = text(&mut random, s, after);
        let name = format!("s {s} with {after} after it");
        let answer = of_text(&mut random, &text, &name);
        assert_eq!(answer.err(), number, "reference: {name}");
    }
}

/// Every byte behind the opening fields and behind a unit: a close has to begin with 20 or 21, a unit with 10 or
/// 14, as its kind says.
#[test]
fn every_next_byte() {
    let mut random = Random::new(SEED + 11);
    for (units, kind) in [0, 1]
        .into_iter()
        .flat_map(|n| Kind::ALL.map(|kind| (n, kind)))
    {
        let mut book = random_book(&mut random, (1, 6), units, 20);
        book.kind = kind;
        let (whole, _) = written(&book);
        let (start, close) = whole.split_at(whole.len() - kind.close_len());
        for k in [units as u64, 7] {
            for byte in 0..=255 {
                let behind = [start, &[byte]].concat();
                refuses(
                    &book.key,
                    &behind,
                    Walked(k),
                    14,
                    &format!("{byte:02X} alone"),
                );
                let as_close = [start, &[byte], &close[1..]].concat();
                let number = if byte == kind.close_tag() { 16 } else { 14 };
                let name = format!("{byte:02X} and a close's rest");
                refuses(&book.key, &as_close, Walked(k), number, &name);
            }
            refuses(&book.key, start, Walked(k), 14, "nothing");
        }
    }
}

/// A close between units: nothing behind it is fetched, whatever it counts.
#[test]
fn a_close_before_the_end() {
    let mut random = Random::new(SEED + 12);
    for suite in SUITES {
        let book = random_book(&mut random, suite, 3, 20);
        let parts = Parts::of(&book);
        for at in 0..3 {
            for (count, number) in [(at, 14), (at + 1, 15), (3, 15)] {
                let mut with = parts.clone();
                with.units
                    .insert(at, close_fields(&book, count, count).concat());
                let bytes = with.joined();
                for k in 0..5 {
                    match k < at {
                        true => fetches(&book.key, &bytes, Walked(k as u64), &book.units[k], ""),
                        false => refuses(&book.key, &bytes, Walked(k as u64), number, ""),
                    }
                }
                *with.units[at].last_mut().expect("a tag") ^= 1;
                let number = if number == 14 { 8 } else { number };
                refuses(
                    &book.key,
                    &with.joined(),
                    Walked(at as u64),
                    number,
                    "its tag",
                );
                refuses(&book.key, &with.joined(), Walked(9), number, "its tag");
            }
        }
    }
}
