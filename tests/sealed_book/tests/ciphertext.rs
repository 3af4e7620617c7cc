//! Where a unit's ciphertext stands in a book: field 11 of unit k, for every book whose frames are read
//! up to there, whatever its seals are; and nothing for any other.

mod common;

use std::ops::Range;

use common::causes::sets;
use common::fetching::{answer_of, part, part_gives, Which::Walked};
use common::parts::{
    close_fields, random_book, renumber, some_book, three_units, unit_fields, written, Parts,
};
use common::spoiled::{spoiled, Cause, Cause::*, CLOSE, UNIT_FRAME, WALK};
use common::spoiling::{bad_text, damage, some_frames};
use common::writing::unit;
use reference::book::{places, Book, Kind};
use reference::cipher::SUITES;
use reference::random::Random;
use reference::vectors::{book_vectors, books_vectors};
use sealed_book::raw;

const SEED: u64 = 0x4349_5048;

/// Where the ciphertext of each unit stands in the book as it was written.
fn parts_of(book: &Book) -> Vec<Range<usize>> {
    let units = book.units.iter().zip(places(book));
    units
        .map(|(unit, place)| {
            let start = place + book.kind.ciphertext_at();
            start..start + unit.text().len()
        })
        .collect()
}

/// Of unit k, or nothing.
fn expected(parts: &[Range<usize>], k: usize) -> Range<usize> {
    parts.get(k).cloned().unwrap_or(0..0)
}

/// The library's and the reference's parts of a book as it was written, each opened to its unit's text.
fn opens_to_each_text(book: &Book, bytes: &[u8], name: &str) {
    let parts = parts_of(book);
    for (k, unit) in book.units.iter().enumerate() {
        let part = part(bytes, k as u64, name);
        assert_eq!(part, parts[k], "reference: {k}, {name}");
        // the header sealed along ends before tag and length of the ciphertext
        let (place, end) = (places(book)[k], places(book)[k + 1]);
        let head = &bytes[place..part.start - 3];
        let tag = &bytes[end - raw::TAG_LEN..end];
        let nonce = [&book.number.to_be_bytes()[..], &(k as u32).to_be_bytes()].concat();
        let header = [&bytes[..raw::FIRST_UNIT], head].concat();
        let sealed = [&bytes[part.clone()], tag].concat();
        let mut text = vec![0; part.len()];
        let (cipher, steps) = (book.cipher, book.steps);
        let opened = raw::open(
            cipher, steps, &book.key, &nonce, &header, &sealed, &mut text,
        );
        assert_eq!(opened, Ok(part.len()), "{k}, {name}");
        assert_eq!(text, unit.text(), "{k}, {name}");
    }
    let units = book.units.len() as u64;
    for k in [
        units,
        units + 1,
        1 << 16,
        (1 << 16) + 1,
        1 << 24,
        1 << 32,
        u64::MAX,
    ] {
        assert_eq!(part(bytes, k, name), 0..0, "reference: {k}, {name}");
    }
}

#[test]
fn book_vectors_hold() {
    let mut units = 0;
    for v in book_vectors().into_iter().chain(books_vectors()) {
        let name = format!("line {}", v.line);
        let key = v.key[..].try_into().expect("16 bytes");
        if let Some(book) = Book::taken_apart(&key, &v.book) {
            opens_to_each_text(&book, &v.book, &name);
            units += book.units.len();
        }
        for k in 0..5 {
            part(&v.book, k, &name);
        }
    }
    assert_eq!(units, 14 + 37);
}

/// Known value 8's field 11 has its 13 bytes at 28, and at 30 as the writer makes it.
#[test]
fn known_book() {
    let mut random = Random::new(SEED);
    for (kind, part) in [(Kind::Tag10, 28..41), (Kind::Tag14, 30..43)] {
        let book = Book::known(kind, random.bytes());
        let (bytes, _) = written(&book);
        opens_to_each_text(&book, &bytes, "known value 8");
        assert_eq!(raw::ciphertext(&bytes, 0), part);
        assert_eq!(raw::ciphertext(&bytes, 1), 0..0);
    }
    part_gives(&[], 0, 0..0, "no book");
}

#[test]
fn books_of_all_lengths() {
    let mut random = Random::new(SEED + 1);
    for suite in SUITES {
        let mut book = some_book(&mut random, suite);
        for (s, t) in [
            (1, 0),
            (4_096, 4_096),
            (1, 4_096),
            (253, 1),
            (254, 0),
            (4_096, 0),
        ] {
            book.units.push(unit(&mut random, s, t));
        }
        let (bytes, _) = written(&book);
        opens_to_each_text(&book, &bytes, &format!("suite {suite:?}"));
    }
    let book = random_book(&mut random, (1, 6), 300, 12);
    let (bytes, _) = written(&book);
    let parts = parts_of(&book);
    for k in 0..310 {
        part_gives(&bytes, k as u64, expected(&parts, k), "300 units");
    }
}

/// Every set of causes of refusal: an empty part for those of the fields, the walk, and the framing,
/// number or languages of the unit; the part for all others, which need the key or the output.
#[test]
fn every_set_of_causes() {
    let mut random = Random::new(SEED + 3);
    let seen = [&[OpeningFields, Suite][..], &WALK, &UNIT_FRAME].concat();
    let unseen = [Key, UnitTag, Lengths, Room];
    let mut counts = [0; 2];
    let mut case = |set: &[Cause], empty: bool| {
        let case = spoiled(&mut random, set);
        let name = format!("causes {set:?}, seed {:X}", SEED + 3);
        let part = part(&case.book, case.k, &name);
        let expected = if empty { 0..0 } else { case.part };
        assert_eq!(part, expected, "reference: {name}");
        counts[usize::from(empty)] += 1;
    };
    for set in sets(&[&seen[..], &unseen].concat()) {
        case(&set, set.iter().any(|cause| seen.contains(cause)));
    }
    for mut set in sets(&[&[Key, Suite][..], &WALK, &CLOSE].concat()) {
        set.push(NoUnit);
        case(&set, true);
    }
    assert_eq!(counts, [16, (1 << 14) - 16 + (1 << 10)]);
}

/// Every byte of a small book changed, to every value: the part is as written where the byte is behind
/// the unit, or in the values of number, ciphertext and tag that are sealed.
#[test]
fn changed_bytes() {
    let mut random = Random::new(SEED + 4);
    let book = random_book(&mut random, (2, 8), 2, 8);
    let (bytes, _) = written(&book);
    let (parts, places) = (parts_of(&book), places(&book));
    let mut changed = bytes.clone();
    for at in 0..bytes.len() {
        for byte in 0..=255 {
            changed[at] = byte;
            let name = format!("byte {at} {byte:02X}");
            for k in 0..4 {
                let part = part(&changed, k as u64, &name);
                let sealed = |unit: usize| {
                    let (part, end) = (&parts[unit], places[unit + 1]);
                    part.contains(&at) || (end - raw::TAG_LEN..end).contains(&at)
                };
                let behind = places.get(k + 1).is_some_and(|end| *end <= at);
                if (3..11).contains(&at) || behind || (0..2).any(sealed) {
                    assert_eq!(part, expected(&parts, k), "{name}");
                } else if k >= 2 {
                    assert_eq!(part, 0..0, "{name}");
                }
            }
        }
        changed[at] = bytes[at];
    }
}

/// The start of a book alone: the part is there as soon as its unit is whole.
#[test]
fn truncated() {
    let mut random = Random::new(SEED + 5);
    for suite in SUITES {
        let book = random_book(&mut random, suite, 3, 30);
        let (bytes, _) = written(&book);
        let (parts, places) = (parts_of(&book), places(&book));
        for len in 0..bytes.len() {
            let whole = places[1..].iter().filter(|end| **end <= len).count();
            for k in 0..5 {
                let part = part(&bytes[..len], k as u64, &format!("{len} bytes"));
                let expected = expected(&parts[..whole], k);
                assert_eq!(part, expected, "unit {k}, {len} bytes");
            }
        }
        part_gives(&[&bytes[..], &[7; 9]].concat(), 2, parts[2].clone(), "more");
    }
}

/// Units in another order, and texts that are out of range: the frames alone decide.
#[test]
fn seals_are_not_looked_at() {
    let mut random = Random::new(SEED + 6);
    for suite in SUITES {
        let book = three_units(&mut random, suite);
        let parts = parts_of(&book);
        let mut changed = Parts::of(&book);
        changed.units.swap(0, 2);
        for k in 0..4 {
            part_gives(&changed.joined(), k, 0..0, "exchanged");
        }
        for (i, unit) in changed.units.iter_mut().enumerate() {
            renumber(unit, i as u8);
        }
        changed.close = close_fields(&book, 2, 2).concat();
        for k in 0..4 {
            let bytes = changed.joined();
            part_gives(&bytes, k as u64, expected(&parts, k), "in running order");
        }
        let text = bad_text(&mut random);
        let m = text.len();
        changed.units[1] = unit_fields(&book, 1, 1, *b"ende", &text).concat();
        let bytes = changed.joined();
        let start = parts[1].start;
        part_gives(&bytes, 1, start..start + m, "out of range");
        let third = places(&book)[1] + changed.units[1].len() + book.kind.ciphertext_at();
        part_gives(&bytes, 2, third..third + 43, "behind it");
        part_gives(&bytes, 3, 0..0, "behind it");
    }
}

/// Without room in the output, fetching under a key of 16 bytes says 8, 12 or 7 where there is a part, and
/// another number where there is none; 8 is the close's, too.
fn assert_fetched(key: &[u8; 16], book: &[u8], k: u64, part: &Range<usize>, name: &str) -> u32 {
    let number = answer_of(key, book, Walked(k), 0).expect_err("there is no room");
    match number {
        7 | 12 => assert!(!part.is_empty(), "{name}"),
        8 => {}
        _ => assert!(part.is_empty(), "{name}"),
    }
    number
}

#[test]
fn random_books() {
    let mut random = Random::new(SEED + 7);
    let (mut counts, mut empty) = ([0; 17], 0);
    for case in 0..6_000 {
        let suite = random.one_of(&SUITES);
        let name = format!("case {case}, seed {:X}", SEED + 7);
        let book;
        let mut bytes;
        if case % 2 == 0 {
            book = random_book(&mut random, suite, 3, 20);
            (bytes, _) = written(&book);
            let other = bytes.clone();
            for _ in 0..1 + random.below(3) {
                damage(&mut random, &mut bytes, &other);
            }
        } else {
            book = some_book(&mut random, suite);
            bytes = some_frames(&mut random, &book);
        }
        let k = random.one_of(&[0, 1, 2, 3, 4, u64::MAX]);
        let part = part(&bytes, k, &name);
        if case % 3 == 0 {
            counts[assert_fetched(&book.key, &bytes, k, &part, &name) as usize] += 1;
        }
        empty += usize::from(part.is_empty());
    }
    for number in [1, 7, 8, 11, 12, 14, 15, 16] {
        assert!(counts[number] > 5, "{counts:?}");
    }
    assert!((2_000..5_000).contains(&empty), "{empty}");
}

/// Other bytes behind the unit change nothing.
#[test]
fn only_what_stands_before_the_end_of_the_unit() {
    let mut random = Random::new(SEED + 8);
    for suite in SUITES {
        let book = three_units(&mut random, suite);
        let (mut bytes, _) = written(&book);
        let (parts, places) = (parts_of(&book), places(&book));
        for k in (0..3).rev() {
            random.fill(&mut bytes[places[k + 1]..]);
            let part = part(&bytes, k as u64, "others behind it");
            assert_eq!(part, parts[k], "reference: unit {k}");
        }
    }
}
