//! Fetching at a place: from unit to unit it hands out what fetching hands out; at any other place, or
//! under another number, it says what stands there.

mod common;

use common::causes::{first_is_given, sets};
use common::fetching::{
    fetch_gives, fetched, fetches, of, of_book, refuses, Answer,
    Which::{Placed, Walked},
    ROOM,
};
use common::parts::{
    books_of_each_kind, close_fields, random_book, three_units, unit_fields, written, Parts,
};
use common::spoiled::{spoiled, Cause, Cause::*, CLOSE, UNIT_FRAME};
use common::spoiling::{bad_openings, damage, some_frames, some_places, too_many, SOME_NUMBERS};
use common::writing::unit;
use reference::book::{field, places, Book, Kind, Unit};
use reference::cipher::{listed, SUITES};
use reference::random::Random;
use reference::vectors::{book_vectors, books_vectors};
use sealed_book::raw::{self, FIRST_UNIT};
use sealed_book::Refusal;

const SEED: u64 = 0x4641_5420;

/// Goes from unit to unit by what the library says of the next one.
fn goes_through(book: &Book, bytes: &[u8], name: &str) {
    let mut out = [0; ROOM];
    let (mut number, mut at) = (0, FIRST_UNIT);
    let end = loop {
        let answer = raw::fetch_at(&book.key, bytes, number, at, &mut out);
        let Ok(raw::FetchedAt { lengths, next }) = answer else {
            break answer;
        };
        let expected = of(&book.units[number as usize]).written();
        let len = lengths.source + lengths.target;
        assert_eq!(lengths.source, book.units[number as usize].source.len());
        assert_eq!(out[..len], expected, "{name}");
        number += 1;
        at = next;
    };
    assert_eq!(end, Err(Refusal::NoSuchUnit), "{name}");
    assert_eq!(number, book.units.len() as u64, "{name}");
    assert_eq!(at, bytes.len() - book.kind.close_len(), "{name}");
}

/// Each unit at its place, and the close.
fn fetches_all(book: &Book, bytes: &[u8], name: &str) {
    let places = places(book);
    for (number, unit) in book.units.iter().enumerate() {
        let which = Placed(number as u64, places[number]);
        fetches(&book.key, bytes, which, unit, name);
    }
    let units = book.units.len();
    refuses(
        &book.key,
        bytes,
        Placed(units as u64, places[units]),
        16,
        name,
    );
    goes_through(book, bytes, name);
}

#[test]
fn book_vectors_hold() {
    let mut units = 0;
    for v in book_vectors().into_iter().chain(books_vectors()) {
        let name = format!("line {}", v.line);
        let key = v.key[..].try_into().expect("16 bytes");
        match Book::taken_apart(&key, &v.book) {
            Some(book) => {
                fetches_all(&book, &v.book, &name);
                units += book.units.len();
            }
            None => {
                let answer = fetched(&key, &v.book, Placed(0, FIRST_UNIT), ROOM, &name);
                let walked = fetched(&key, &v.book, Walked(0), ROOM, &name);
                assert_eq!(answer, walked, "reference: {name}");
            }
        }
    }
    assert_eq!(units, 14 + 37);
}

#[test]
fn from_unit_to_unit() {
    let mut random = Random::new(SEED);
    for suite in SUITES {
        let mut book = random_book(&mut random, suite, 3, 40);
        for (s, t) in [(1, 0), (4_096, 4_096), (1, 4_096)] {
            book.units.push(unit(&mut random, s, t));
        }
        let (bytes, _) = written(&book);
        fetches_all(&book, &bytes, &format!("suite {suite:?}"));
    }
    let book = random_book(&mut random, (1, 6), 5_000, 12);
    let (bytes, _) = written(&book);
    goes_through(&book, &bytes, "5,000 units");
}

/// The causes of a unit, in their order, with what stands before it not looked at; and those of a close.
#[test]
fn every_set_of_causes() {
    let case = |random: &mut Random, set: &[Cause], name: &str| {
        let mut case = spoiled(random, set);
        if !set.contains(&OpeningFields) {
            // not one byte between the first, which says the kind, and the place is looked at
            random.fill(&mut case.book[FIRST_UNIT + 1..case.place]);
        }
        let which = Placed(case.running, case.place);
        fetched(&case.key, &case.book, which, case.out_len, name)
    };
    let opening = [Key, OpeningFields, Suite];
    let of_unit = [&opening[..], &UNIT_FRAME, &[UnitTag, Lengths, Room]].concat();
    let counts = first_is_given(SEED + 1, &sets(&of_unit), 1, case);
    assert_eq!(counts[0], 1);
    assert_eq!(counts.iter().sum::<usize>(), 1 << 10);
    let mut without = sets(&[&opening[..], &CLOSE].concat());
    for set in &mut without {
        set.push(NoUnit);
    }
    let counts = first_is_given(SEED + 2, &without, 4, case);
    assert_eq!(counts[16], 4);
}

/// Every place of a book and many past its end, under several numbers.
#[test]
fn every_place() {
    let mut random = Random::new(SEED + 3);
    for suite in SUITES {
        let mut book = random_book(&mut random, suite, 2, 9);
        // no byte of the number may be taken for a field
        book.number = 0x4142_4344_4546_4748;
        let (bytes, _) = written(&book);
        let places: [usize; 3] = places(&book).try_into().expect("two units");
        let len = bytes.len();
        for at in some_places(len, &places) {
            for number in SOME_NUMBERS {
                let name = format!("seed {:X}", SEED + 3);
                let answer = fetched(&book.key, &bytes, Placed(number, at), 20, &name);
                if at < FIRST_UNIT || at >= len {
                    assert_eq!(answer, Err(14), "{at}, {name}");
                }
                if let Some(unit) = places.iter().position(|place| *place == at) {
                    let expected = match (unit, number) {
                        _ if unit as u64 == number => of_book(&book, number),
                        (2, _) | (_, ..=16_777_214) => Err(15),
                        _ => Err(13),
                    };
                    assert_eq!(answer, expected, "unit {number} at {at}, {name}");
                } else {
                    assert!(answer.is_err(), "unit {number} at {at}, {name}");
                }
            }
        }
    }
}

/// Every number that fits into two bytes, and some that do not: 13 for a unit from 16,777,215 on, whatever its
/// header says, and 15 for a close.
#[test]
fn every_number() {
    let mut random = Random::new(SEED + 4);
    for mut book in books_of_each_kind(&mut random, (1, 6)) {
        book.units = random_book(&mut random, (1, 6), 2, 9).units;
        let (bytes, _) = written(&book);
        let gives = |number: u64, at: usize, answer: &Answer, name: &str| {
            fetch_gives(&book.key, &bytes, Placed(number, at), 20, answer, name);
        };
        let [_, second, close] = places(&book)[..] else {
            panic!("two units");
        };
        let wide = [0x1_0001, 0x1_0002, 0x100_0001, (1 << 32) + 1, u64::MAX];
        let limit = [16_777_214, 16_777_215, 16_777_216];
        for number in (0..=0x1_0000).chain(wide).chain(limit) {
            let unit = match number {
                1 => of_book(&book, 1),
                16_777_215.. => Err(13),
                _ => Err(15),
            };
            gives(number, second, &unit, "a unit");
            let end = if number == 2 { Err(16) } else { Err(15) };
            gives(number, close, &end, "the close");
        }
    }
}

/// The last number that a unit can have, one more, and the closes of full books. Unit 65,535 of an old book has its
/// number in two bytes, and is handed out, where a unit 16,777,215 gets 13.
#[test]
fn last_numbers() {
    let mut random = Random::new(SEED + 10);
    for book in books_of_each_kind(&mut random, (1, 6)) {
        let opening = book.opening();
        let most = book.kind.most_units();
        let more = match book.kind {
            Kind::Tag10 => None,
            Kind::Tag14 => Some(13),
        };
        for (number, expected) in [(most - 1, None), (most, more)] {
            let last = unit_fields(&book, number, number, *b"ende", &[0, 1, 7]).concat();
            let bytes = [&opening[..], &last].concat();
            let which = Placed(number as u64, FIRST_UNIT);
            let answer = fetched(&book.key, &bytes, which, 1, "the last");
            assert_eq!(answer.err(), expected, "{number}");
        }
        let close = close_fields(&book, most, most).concat();
        let bytes = [&opening[..], &close].concat();
        let refuses = |number: usize, refusal: u32, name: &str| {
            let which = Placed(number as u64, FIRST_UNIT);
            refuses(&book.key, &bytes, which, refusal, name);
        };
        refuses(most, 16, "a full book's close");
        let same = most + (1 << (8 * book.kind.number_bytes()));
        refuses(same, 15, "a number with its bytes");
        // a close has no limit but its bytes
        let count = (1 << (8 * book.kind.number_bytes())) - 1;
        let close = close_fields(&book, count, count).concat();
        let bytes = [&opening[..], &close].concat();
        let which = Placed(count as u64, FIRST_UNIT);
        self::refuses(&book.key, &bytes, which, 16, "all bits set");
    }
}

#[test]
fn too_many_units() {
    let mut random = Random::new(SEED + 5);
    for mut book in books_of_each_kind(&mut random, (2, 8)) {
        book.units = random_book(&mut random, (2, 8), 1, 9).units;
        let (bytes, _) = written(&book);
        for (at, byte, number) in too_many(book.kind) {
            let mut changed = bytes.clone();
            changed[at] = byte;
            for unit in [16_777_215, 16_777_216, u64::MAX] {
                let which = Placed(unit, FIRST_UNIT);
                refuses(&book.key, &changed, which, number, "a unit");
                refuses(&book.key[1..], &changed, which, 2, "a unit");
            }
        }
    }
}

/// The opening fields are looked at first, wherever the place is.
#[test]
fn opening_fields_first() {
    let mut random = Random::new(SEED + 6);
    let book = random_book(&mut random, (1, 10), 1, 9);
    let (bytes, _) = written(&book);
    for at in [
        0,
        3,
        16,
        bytes.len() - book.kind.close_len(),
        bytes.len(),
        usize::MAX,
    ] {
        for (changed, number) in bad_openings(&bytes) {
            refuses(&book.key[..15], &changed, Placed(0, at), 2, "a key");
            refuses(&book.key, &changed, Placed(0, at), number, "an opening");
        }
    }
    let mut changed = bytes.clone();
    for cipher in 0..=255 {
        for steps in 0..=15 {
            (changed[14], changed[15]) = (cipher, steps);
            let answer = match (cipher, steps) {
                (1, 10) => of_book(&book, 0),
                _ if listed(cipher, steps) => Err(8),
                _ => Err(1),
            };
            fetch_gives(&book.key, &changed, Placed(0, FIRST_UNIT), 20, &answer, "");
        }
    }
}

/// Units and closes that stand inside the opening fields, as far as a book number can have them there.
#[test]
fn inside_the_opening_fields() {
    let mut random = Random::new(SEED + 7);
    // a close with the count 0, and its tag in what follows; the same with the count 5
    for (kind, number, at, unit, refusal) in [
        (Kind::Tag10, 0x2000_0200_0012_0010, 3, 0, 8),
        (Kind::Tag10, 0x2000_0200_0012_0010, 3, 1, 15),
        (Kind::Tag10, 0x2000_0200_0512_0010, 3, 5, 8),
        (Kind::Tag10, 0x2000_0200_0012_0011, 3, 0, 14),
        (Kind::Tag14, 0x2000_0200_0012_0010, 3, 0, 14),
        // a unit's header, whose last letter is field 02's tag
        (Kind::Tag10, 0x1000_0600_0065_6E64, 3, 0, 11),
        (Kind::Tag10, 0x1000_0600_0065_6E64, 3, 1, 15),
        (Kind::Tag10, 0x1000_0600_0065_6E64, 3, 16_777_215, 13),
        (Kind::Tag10, 0x4110_0006_0003_6161, 4, 3, 11),
        (Kind::Tag10, 0x4110_0006_0003_6161, 4, 0, 15),
        (Kind::Tag10, 0x4110_0007_0003_6161, 4, 3, 14),
        (Kind::Tag14, 0x1000_0600_0065_6E64, 3, 0, 14),
        // a wide one's, whose codes are 02 00 and 02 and the cipher
        (Kind::Tag14, 0x4114_0008_0000_0003, 4, 3, 11),
        (Kind::Tag14, 0x4114_0008_0000_0003, 4, 0, 15),
        (Kind::Tag14, 0x4114_0008_0000_0003, 4, 16_777_215, 13),
        (Kind::Tag14, 0x4114_0006_0000_0003, 4, 3, 14),
        (Kind::Tag10, 0x4114_0008_0000_0003, 4, 3, 14),
        // a wide close, whose field 12 is field 02
        (Kind::Tag14, 0x4121_0004_0000_0003, 4, 3, 14),
    ] {
        let mut book = random_book(&mut random, (1, 6), 1, 9);
        book.kind = kind;
        book.number = number;
        let (bytes, _) = written(&book);
        let name = format!("{kind:?}, book {number:X}");
        refuses(&book.key, &bytes, Placed(unit, at), refusal, &name);
        fetches(
            &book.key,
            &bytes,
            Placed(0, FIRST_UNIT),
            &book.units[0],
            &name,
        );
    }
}

/// A whole unit and a close that stand inside a field 11: handed out where they are looked for, and not
/// by the walk.
#[test]
fn inside_a_ciphertext() {
    let mut random = Random::new(SEED + 8);
    for suite in SUITES {
        let book = three_units(&mut random, suite);
        let parts = Parts::of(&book);
        let start = book.kind.ciphertext_at();
        let hidden = Unit {
            from: *b"en",
            to: *b"de",
            source: random.some_bytes(9),
            target: random.some_bytes(4),
        };
        let inner = unit_fields(&book, 700, 700, *b"ende", &hidden.text()).concat();
        let close = close_fields(&book, 701, 701).concat();
        let value = [&random.bytes::<5>()[..], &inner, &close, &[0x12, 0, 16]].concat();
        let mut changed = parts.clone();
        changed.units[1] = [
            &parts.units[1][..start - 3],
            &field(0x11, &value),
            &field(0x12, &random.bytes::<16>()),
        ]
        .concat();
        let bytes = changed.joined();
        let at = places(&book)[1] + start + 5;
        fetches(&book.key, &bytes, Placed(700, at), &hidden, "inside");
        refuses(&book.key, &bytes, Placed(701, at), 15, "inside");
        let end = at + hidden.len(book.kind);
        refuses(
            &book.key,
            &bytes,
            Placed(701, end),
            14,
            "bytes behind the close",
        );
        refuses(
            &book.key,
            &bytes[..end + close.len()],
            Placed(701, end),
            16,
            "none behind it",
        );
        refuses(&book.key, &bytes, Walked(1), 8, "the unit around it");
        fetches(&book.key, &bytes, Walked(2), &book.units[2], "behind it");
        refuses(&book.key, &bytes, Walked(700), 16, "behind it");
    }
}

/// Random places, numbers and damage; at the places of the walk the answers are those of the walk.
#[test]
fn random_places() {
    let mut random = Random::new(SEED + 9);
    let mut counts = [0; 17];
    let mut count = |answer: &Answer| counts[answer.as_ref().err().map_or(0, |n| *n) as usize] += 1;
    for case in 0..2_000 {
        let suite = random.one_of(&SUITES);
        let book = random_book(&mut random, suite, 3, 20);
        let (whole, _) = written(&book);
        let places = places(&book);
        let name = format!("case {case}, seed {:X}", SEED + 9);
        let mut bytes = whole.clone();
        if case % 4 != 0 {
            damage(&mut random, &mut bytes, &whole);
        }
        let k = random.below(4);
        let out_len = random.below(60);
        let answer = fetched(
            &book.key,
            &bytes,
            Placed(k as u64, places[k]),
            out_len,
            &name,
        );
        if bytes.starts_with(&whole[..places[k]]) {
            let walked = fetched(&book.key, &bytes, Walked(k as u64), out_len, &name);
            assert_eq!(answer, walked, "reference: {name}");
        }
        count(&answer);
        let frames = some_frames(&mut random, &book);
        for bytes in [&bytes, &frames] {
            let at = random.below(bytes.len() + 3);
            let number = random.one_of(&[0, 1, 2, 3, 16_777_215]);
            count(&fetched(
                &book.key,
                bytes,
                Placed(number, at),
                out_len,
                &name,
            ));
        }
        let number = random.below(4) as u64;
        count(&fetched(
            &book.key,
            &frames,
            Placed(number, FIRST_UNIT),
            out_len,
            &name,
        ));
    }
    for number in [0, 1, 7, 8, 11, 14, 15, 16] {
        assert!(counts[number] > 5, "{counts:?}");
    }
}
