//! The two kinds of book: the old one, with numbers of two bytes, which the earlier writer left, and the wide one,
//! with numbers of four, which the writer makes. One kind per book; the most units of each; numbers in all of their
//! bytes. Parts of old books, and of mixed ones, are the second implementation's.

mod common;

use common::checking::{accepts, check_gives, checked, refuses};
use common::clearing;
use common::fetching::{
    self, fetch_gives, fetched, fetches, of, of_book, part, part_gives,
    Which::{Placed, Walked},
    ROOM,
};
use common::paging::{self, page_gives, paged, pages};
use common::parts::{books_of_each_kind, number_in, sealed, unit_fields, written, Parts};
use common::writing::{unit, Call, Desk};
use reference::book::{field, places, Book, Kind, Unit};
use reference::check::check;
use reference::cipher::SUITES;
use reference::random::Random;
use reference::writer::Writer;
use sealed_book::raw::{self, FIRST_UNIT, ROW_LEN};
use sealed_book::Refusal;

const SEED: u64 = 0x4B49_4E44;

/// Every row of so many kinds.
fn rows(len: usize) -> Vec<Vec<Kind>> {
    let row = |bits: usize| (0..len).map(|i| Kind::ALL[bits >> i & 1]).collect();
    (0..1 << len).map(row).collect()
}

/// A book whose units and close are of these kinds, each sealed with its own header; and where each begins.
fn mixed(book: &Book, kinds: &[Kind]) -> (Vec<u8>, Vec<usize>) {
    let (close, of_units) = kinds.split_last().expect("a close");
    let (mut bytes, mut places) = (book.opening(), vec![16]);
    for (i, kind) in of_units.iter().enumerate() {
        bytes.extend(book.unit(*kind, i, &book.units[i]).0);
        places.push(bytes.len());
    }
    bytes.extend(book.close(*close, of_units.len()).0);
    (bytes, places)
}

/// Units of either kind at each place behind each, up to three, and either close behind each: the first part is of
/// the book's kind, and 14 is given at the first one of another. A book without units may have either close.
#[test]
fn one_kind_per_book() {
    let mut random = Random::new(SEED);
    for suite in SUITES {
        let mut book = Book::random(&mut random, suite);
        book.units = [(5, 6), (14, 0), (1, 40)]
            .map(|(s, t)| unit(&mut random, s, t))
            .to_vec();
        let (mut accepted, mut refused) = (0, 0);
        for kinds in (1..=4).flat_map(rows) {
            let name = format!("{kinds:?}, {suite:?}, seed {SEED:X}");
            let (bytes, places) = mixed(&book, &kinds);
            let units = kinds.len() - 1;
            // how many parts of one kind the book begins with
            let same = kinds.iter().take_while(|kind| **kind == kinds[0]).count();
            let answer = checked(&book.key, &bytes, &name);
            let page = paged(&book.key, &bytes, b"valves", 60, &name);
            if same == kinds.len() {
                let blocks = book.units[..units].iter();
                let calls = blocks.map(|unit| 3 + unit.text().len().div_ceil(16));
                let calls = calls.sum::<usize>() + 3;
                assert_eq!(answer, Ok((units as u64, calls as u64)), "{name}");
                assert_eq!(page.map(|page| page.len()), Ok(ROW_LEN * units), "{name}");
                accepted += 1;
            } else {
                assert_eq!((answer, page), (Err(14), Err(14)), "{name}");
                refused += 1;
            }
            for k in 0..units + 2 {
                let unit = &book.units.get(k).filter(|_| k < units);
                let expected = match unit {
                    Some(unit) if k < same => Ok(of(unit)),
                    _ if same < kinds.len() => Err(14),
                    _ => Err(16),
                };
                let answer = fetched(&book.key, &bytes, Walked(k as u64), 60, &name);
                assert_eq!(answer, expected, "{k}, {name}");
                let clear = clearing::unit(&bytes, Walked(k as u64), &name);
                let refusal = expected.as_ref().err();
                assert_eq!(clear.as_ref().err(), refusal, "{k}, {name}");
                let part = part(&bytes, k as u64, &name);
                assert_eq!(part.is_empty(), expected.is_err(), "{k}, {name}");
                // at its place each part is read as one of the book's kind
                let Some((at, kind)) = places.get(k).zip(kinds.get(k)) else {
                    continue;
                };
                let expected = match unit {
                    _ if *kind != kinds[0] => Err(14),
                    Some(unit) => Ok(of(unit)),
                    None => Err(16),
                };
                let which = Placed(k as u64, *at);
                let answer = fetched(&book.key, &bytes, which, 60, &name);
                assert_eq!(answer, expected, "{which:?}, {name}");
                let clear = clearing::unit(&bytes, which, &name);
                assert_eq!(clear.err(), expected.err(), "{which:?}, {name}");
            }
        }
        assert_eq!((accepted, refused), (4 * 2, 2 + 4 + 8 + 16 - 4 * 2));
    }
}

/// Headers and closes whose tag is of one kind and whose number is of the other, sealed so: 14, at the first part
/// and behind a unit.
#[test]
fn tag_of_one_kind_and_number_of_the_other() {
    let mut random = Random::new(SEED + 1);
    for (tags, numbers) in [(Kind::Tag10, Kind::Tag14), (Kind::Tag14, Kind::Tag10)] {
        for (units, first) in [(0, tags), (1, Kind::Tag10), (1, Kind::Tag14)] {
            let mut book = Book::random(&mut random, (2, 8));
            book.kind = first;
            book.units = vec![unit(&mut random, 3, 4); units];
            let name = format!("{tags:?} with numbers of {numbers:?}, {units} units");
            let (whole, _) = written(&book);
            let before = &whole[..whole.len() - book.kind.close_len()];
            let number = number_in(numbers, units);
            let text = [0, 1, 7];

            let head = field(tags.header_tag(), &[&number[..], b"ende"].concat());
            let (ciphertext, tag) = sealed(&book, units, &head, &text);
            let of_unit = [head, field(0x11, &ciphertext), field(0x12, &tag)].concat();
            let head = field(tags.close_tag(), &number);
            let (_, tag) = sealed(&book, units, &head, &[]);
            let of_close = [head, field(0x12, &tag)].concat();
            for part in [&of_unit, &of_close] {
                let bytes = [before, part].concat();
                refuses(&book.key, &bytes, 14, &name);
                let k = units as u64;
                for which in [Walked(k), Placed(k, before.len())] {
                    fetching::refuses(&book.key, &bytes, which, 14, &name);
                    clearing::refuses(&bytes, which, 14, &name);
                }
            }
        }
    }
}

/// The same units in both kinds: "an old number means the same number after widening". Units, count, call total and
/// page are the same; the parts stand two bytes farther on for each number before them.
#[test]
fn same_units_in_both_kinds() {
    let mut random = Random::new(SEED + 2);
    for suite in SUITES {
        let name = format!("{suite:?}, seed {:X}", SEED + 2);
        let [mut old, mut wide] = books_of_each_kind(&mut random, suite);
        (wide.key, wide.number) = (old.key, old.number);
        for _ in 0..300 {
            let (s, t) = (1 + random.below(30), random.below(30));
            old.units.push(unit(&mut random, s, t));
        }
        wide.units = old.units.clone();
        let [(of_old, _), (of_wide, writer)] = [&old, &wide].map(written);
        assert_eq!(of_wide.len(), of_old.len() + 2 * 301, "{name}");
        let typed = old.units[7].source.clone();
        for (book, bytes) in [(&old, &of_old), (&wide, &of_wide)] {
            accepts(&book.key, bytes, 300, writer.calls, &name);
            pages(book, bytes, &typed, &name);
        }
        for k in [0, 1, 254, 255, 256, 299] {
            let more = 2 * (k as usize + 1);
            for (book, bytes) in [(&old, &of_old), (&wide, &of_wide)] {
                let unit = &book.units[k as usize];
                fetches(&book.key, bytes, Walked(k), unit, &name);
            }
            let [one, other] = [&of_old, &of_wide].map(|bytes| part(bytes, k, &name));
            let farther = one.start + more..one.end + more;
            assert_eq!(other, farther, "{name}");
            // the header is sealed along: the tags differ, and the ciphertexts do not
            assert_eq!(of_old[one.clone()], of_wide[other.clone()], "{name}");
            let tags = [(&of_old, one.end), (&of_wide, other.end)];
            let [one, other] = tags.map(|(bytes, end)| &bytes[end + 3..end + 19]);
            assert_ne!(one, other, "{name}");
        }
    }
}

/// The longest old book: read to its last unit. One unit more has its number in two bytes, and is a unit where it
/// stands; the book is refused at its close, whose count has no two bytes. One more still is refused itself.
#[test]
fn most_units_of_an_old_book() {
    let mut random = Random::new(SEED + 3);
    let mut book = Book::random(&mut random, (1, 6));
    book.kind = Kind::Tag10;
    book.units = (0..65_535).map(|_| unit(&mut random, 1, 0)).collect();
    let (bytes, calls) = book.laid_out();
    assert_eq!(
        (bytes.len(), calls),
        (16 + 65_535 * 34 + 24, 4 * 65_535 + 3)
    );
    let (key, name) = (&book.key, "65,535 units");
    check_gives(key, &bytes, Ok((65_535, calls as u64)), name);
    let page = paging::of_book(&book, b"valve");
    assert_eq!(page.len(), 65_535 * ROW_LEN);
    page_gives(key, &bytes, b"valve", page.len() - 1, &Err(7), name);
    page_gives(key, &bytes, b"valve", page.len() + 1, &Ok(page), name);
    reads(
        &book,
        &bytes,
        &[0, 1, 255, 256, 32_768, 65_533, 65_534],
        name,
    );
    reads_none(
        &book,
        &bytes,
        &[65_535, 65_536, 65_537, 1 << 24, 1 << 32, u64::MAX],
        16,
        name,
    );

    // unit 65,535, and the closes that its book may have
    let name = "65,536 units";
    let last = unit(&mut random, 1, 0);
    let units = &bytes[..bytes.len() - 24];
    let units = [units, &book.unit(book.kind, 65_535, &last).0].concat();
    book.units.push(last.clone());
    let key = &book.key;
    for count in [0, 1, 65_535] {
        let bytes = [&units[..], &book.close(book.kind, count).0].concat();
        check_gives(key, &bytes, Err(15), name);
        reads_none(&book, &bytes, &[65_536, 65_537, u64::MAX], 15, name);
    }
    let bytes = [&units[..], &book.close(book.kind, 0).0].concat();
    assert_eq!(check(key, &bytes), Err(15), "reference: {name}");
    page_gives(key, &bytes, b"", 65_537 * ROW_LEN, &Err(15), name);
    reads(&book, &bytes, &[0, 65_534, 65_535], name);

    // unit 65,536, which has no number in two bytes: 15, and never 13
    let name = "65,537 units";
    for number in [0, 1, 65_535] {
        let unit = book.unit(book.kind, number, &last).0;
        let bytes = [&units[..], &unit].concat();
        check_gives(key, &bytes, Err(15), name);
        page_gives(key, &bytes, b"", 65_537 * ROW_LEN, &Err(15), name);
        reads(&book, &bytes, &[65_535], name);
        reads_none(&book, &bytes, &[65_536, 65_537, u64::MAX], 15, name);
        let which = Placed(65_536, units.len());
        fetching::refuses(key, &bytes, which, 15, name);
        clearing::refuses(&bytes, which, 15, name);
    }
}

/// A wide book past the old limit, written by the library.
#[test]
fn seventy_thousand_units() {
    let mut random = Random::new(SEED + 4);
    let mut book = Book::random(&mut random, (1, 6));
    book.units = (0..70_000).map(|_| unit(&mut random, 1, 1)).collect();
    let (mut bytes, writer) = written(&book);
    let (key, name) = (&book.key, "70,000 units");
    assert_eq!(bytes.len(), 16 + 70_000 * 37 + 26);
    assert_eq!((writer.units, writer.calls), (70_000, 4 * 70_000 + 3));
    check_gives(key, &bytes, Ok((70_000, writer.calls)), name);
    let page = paging::of_book(&book, b"x");
    page_gives(key, &bytes, b"x", page.len() - 1, &Err(7), name);
    page_gives(key, &bytes, b"x", page.len(), &Ok(page), name);
    let ks = [0, 1, 65_534, 65_535, 65_536, 65_537, 69_998, 69_999];
    reads(&book, &bytes, &ks, name);
    reads_none(
        &book,
        &bytes,
        &[70_000, 70_001, 135_535, 1 << 24, u64::MAX],
        16,
        name,
    );
    // unit 65,536 and what stands at its place under the number that its low bytes say
    let at = places(&book)[65_536];
    fetching::refuses(key, &bytes, Placed(0, at), 15, name);
    clearing::refuses(&bytes, Placed(0, at), 15, name);
    let last = bytes.len() - 1;
    bytes[last] ^= 1;
    check_gives(key, &bytes, Err(8), "the close's tag");
    reads_none(&book, &bytes, &[70_000], 8, "the close's tag");
}

/// Units of a long book, by each way to read them; the reference does not open the others.
fn reads(book: &Book, bytes: &[u8], ks: &[usize], name: &str) {
    let places = places(book);
    for &k in ks {
        let (unit, at, number) = (&book.units[k], places[k], k as u64);
        for which in [Walked(number), Placed(number, at)] {
            fetches(&book.key, bytes, which, unit, name);
            let clear = clearing::unit(bytes, which, name).expect(name);
            assert_eq!((clear.at, clear.next), (at, places[k + 1]), "{name}");
            assert_eq!(
                (&clear.from[..], &clear.to[..]),
                (&unit.from[..], &unit.to[..])
            );
        }
        let start = at + book.kind.ciphertext_at();
        part_gives(bytes, number, start..start + unit.text().len(), name);
    }
}

/// Numbers that a long book has no unit of: the refusal of the walk's end. Of a close whose seal alone is broken, the
/// calls that need no key know nothing.
fn reads_none(book: &Book, bytes: &[u8], ks: &[u64], refusal: u32, name: &str) {
    for &k in ks {
        fetching::refuses(&book.key, bytes, Walked(k), refusal, name);
        let clear = if refusal == 8 { 16 } else { refusal };
        clearing::refuses(bytes, Walked(k), clear, name);
        part_gives(bytes, k, 0..0, name);
    }
}

/// A unit, and a close, whose number differs from the running one in one of its bytes alone, sealed for that number,
/// or for the running one: 15. Where it is looked for under its own number it is handed out, up to the limit.
#[test]
fn one_byte_of_a_number() {
    let mut random = Random::new(SEED + 5);
    for mut book in books_of_each_kind(&mut random, (2, 10)) {
        book.units = (0..3).map(|_| unit(&mut random, 9, 4)).collect();
        let (key, kind, parts) = (&book.key, book.kind, Parts::of(&book));
        let places = places(&book);
        for byte in 0..kind.number_bytes() {
            for bit in 0..8 {
                let change = 1 << (8 * byte + bit);
                let name = format!("{kind:?}, byte {byte}, bit {bit}");
                for running in 0..3 {
                    let other = running ^ change;
                    let Unit { from, to, .. } = book.units[running];
                    let codes = [from, to].concat().try_into().expect("4 letters");
                    let text = book.units[running].text();
                    for nonce in [other, running] {
                        let mut changed = parts.clone();
                        let unit = unit_fields(&book, nonce, other, codes, &text);
                        changed.units[running] = unit.concat();
                        let bytes = changed.joined();
                        refuses(key, &bytes, 15, &name);
                        let which = Placed(running as u64, places[running]);
                        for which in [Walked(running as u64), Walked(7), which] {
                            fetching::refuses(key, &bytes, which, 15, &name);
                            clearing::refuses(&bytes, which, 15, &name);
                        }
                        let which = Placed(other as u64, places[running]);
                        let expected = match other {
                            16_777_215.. => Err(13),
                            _ if nonce == other => Ok(of(&book.units[running])),
                            _ => Err(8),
                        };
                        let answer = fetched(key, &bytes, which, ROOM, &name);
                        assert_eq!(answer, expected, "{which:?}, {name}");
                    }
                }
                let other = 3 ^ change;
                for nonce in [other, 3] {
                    let mut changed = parts.clone();
                    let head = field(kind.close_tag(), &number_in(kind, other));
                    let (_, tag) = sealed(&book, nonce, &head, &[]);
                    changed.close = [head, field(0x12, &tag)].concat();
                    let bytes = changed.joined();
                    refuses(key, &bytes, 15, &name);
                    for which in [Walked(3), Walked(other as u64 + 3), Placed(3, places[3])] {
                        fetching::refuses(key, &bytes, which, 15, &name);
                        clearing::refuses(&bytes, which, 15, &name);
                    }
                    let which = Placed(other as u64, places[3]);
                    let refusal = if nonce == other { 16 } else { 8 };
                    fetching::refuses(key, &bytes, which, refusal, &name);
                }
            }
        }
    }
}

/// An old number with the same two low bytes is another number: in a wide book at its place, and where an old unit
/// is looked for under a number of more than two bytes.
#[test]
fn old_numbers_are_whole() {
    let mut random = Random::new(SEED + 6);
    for mut book in books_of_each_kind(&mut random, (1, 8)) {
        book.units = (0..3).map(|_| unit(&mut random, 9, 4)).collect();
        let ((bytes, _), places) = (written(&book), places(&book));
        let name = format!("{:?}", book.kind);
        for (k, at) in places.iter().enumerate() {
            for upper in [0x1_0000, 0xFE_0000, 0x100_0000, 0x1_0000_0000, 1 << 63] {
                let number = k as u64 + upper;
                let refusal = match k {
                    0..3 if number >= 16_777_215 => 13,
                    _ => 15,
                };
                let which = Placed(number, *at);
                fetching::refuses(&book.key, &bytes, which, refusal, &name);
                clearing::refuses(&bytes, which, refusal, &name);
                // a walk to it meets the close
                fetching::refuses(&book.key, &bytes, Walked(number), 16, &name);
            }
        }
    }
}

/// A writer such as calls may leave, with so many units and calls.
fn writer(random: &mut Random, units: u64, calls: u64) -> Writer {
    let (cipher, steps) = random.one_of(&SUITES);
    Writer {
        cipher,
        steps,
        key: random.bytes(),
        number: random.number(),
        place: 16,
        units,
        calls,
        closed: false,
    }
}

/// Refusals 9 and 13 at the writer's limit, with call totals up to 1,024 × (count + 1) and one more.
#[test]
fn limit_of_the_writer() {
    let mut random = Random::new(SEED + 7);
    for (units, add, close) in [
        (65_534, Ok(()), Ok(())),
        (65_535, Ok(()), Ok(())),
        (65_536, Ok(()), Ok(())),
        (16_777_214, Ok(()), Ok(())),
        (16_777_215, Err(13), Ok(())),
        (16_777_216, Err(9), Err(9)),
        (16_777_217, Err(9), Err(9)),
        (0x1_0000_0000, Err(9), Err(9)),
    ] {
        let most = 1_024 * (units + 1);
        for (calls, within) in [
            (0, true),
            (most, true),
            (most + 1, false),
            (u64::MAX, false),
        ] {
            let name = format!("{units} units, {calls} calls, seed {:X}", SEED + 7);
            let writer = writer(&mut random, units, calls);
            let desk = Desk::with(&mut random, writer, 80);
            let expected = |answer| if within { answer } else { Err(9) };
            let adding = Call::Add(unit(&mut random, 3, 2));
            let answer = desk.clone().call(&adding, 80, &name);
            assert_eq!(answer, expected(add), "{name}");
            let answer = desk.clone().call(&Call::Close, 80, &name);
            assert_eq!(answer, expected(close), "{name}");
            // 13 comes before 7, and 9 before both
            let answer = desk.clone().call(&adding, 16, &name);
            assert_eq!(answer, expected(add.and(Err(7))), "{name}");
            let answer = desk.clone().call(&Call::Close, 41, &name);
            assert_eq!(answer, expected(close.and(Err(7))), "{name}");
        }
    }
}

/// Units and closes with each byte of their numbers set, written by the library, beside the second implementation's
/// writer and layout; then read back under that number.
#[test]
fn large_numbers() {
    let mut random = Random::new(SEED + 8);
    for units in [
        0xFF, 0x100, 0xFFFF, 0x1_0000, 0x1_0001, 0xFE_0000, 0xFE_FDFC, 0x80_0001, 0xFF_FFFD,
    ] {
        let writer = writer(&mut random, units, 0);
        let name = format!("{units} units, seed {:X}", SEED + 8);
        let book = Book {
            kind: Kind::NEWEST,
            cipher: writer.cipher,
            steps: writer.steps,
            key: writer.key,
            number: writer.number,
            units: vec![unit(&mut random, 9, 8), unit(&mut random, 1, 0)],
        };
        let mut desk = Desk::with(&mut random, writer, 16 + 52 + 36 + 26);
        desk.buffer[..16].copy_from_slice(&book.opening());
        for added in &book.units {
            desk.passes(&Call::Add(added.clone()), desk.buffer.len(), &name);
        }
        desk.passes(&Call::Close, desk.buffer.len(), &name);
        let bytes = &desk.buffer;
        let [n3, n2, n1, n0] = (units as u32).to_be_bytes();
        assert_eq!(bytes[16..23], [0x14, 0, 8, n3, n2, n1, n0], "{name}");
        let number = units as usize;
        let parts = [
            book.opening(),
            book.unit(Kind::NEWEST, number, &book.units[0]).0,
            book.unit(Kind::NEWEST, number + 1, &book.units[1]).0,
            book.close(Kind::NEWEST, number + 2).0,
        ];
        assert_eq!(*bytes, parts.concat(), "{name}");
        assert_eq!(
            (desk.value().units, desk.place()),
            (units + 2, bytes.len()),
            "{name}"
        );

        let [one, two, close] = places(&book)[..] else {
            panic!("two units");
        };
        for (more, at, unit) in [(0, one, &book.units[0]), (1, two, &book.units[1])] {
            let which = Placed(units + more, at);
            fetches(&book.key, bytes, which, unit, &name);
            assert!(clearing::unit(bytes, which, &name).is_ok(), "{name}");
        }
        let which = Placed(units + 2, close);
        fetching::refuses(&book.key, bytes, which, 16, &name);
        clearing::refuses(bytes, which, 16, &name);
        // it is no whole book, which begins with unit 0
        refuses(&book.key, bytes, 15, &name);
    }
}

/// Walks over the longest wide book, of whose units only the first was sealed for its own number: to its last unit,
/// and to its close. With one unit more in place of the close, or with the header of one, 13 is given for it. The
/// calls are made without guards, since the book has 600 megabytes.
#[test]
fn walks_to_the_limit() {
    let mut random = Random::new(SEED + 11);
    let book = Book::random(&mut random, (1, 6));
    let (mut fields, _) = book.unit(book.kind, 0, &unit(&mut random, 1, 0));
    let (len, count) = (fields.len(), 16_777_215);
    let mut bytes = Vec::with_capacity(16 + (count + 1) * len);
    bytes.extend(book.opening());
    for number in 0..count {
        fields[3..7].copy_from_slice(&number_in(book.kind, number));
        bytes.extend(&fields);
    }
    let end = bytes.len();
    fields[3..7].copy_from_slice(&number_in(book.kind, count));
    let last = end - len..end;
    let ciphertext = last.start + 14..last.start + 17;
    for (behind, refusal) in [
        (&book.close(book.kind, count).0[..], Refusal::NoSuchUnit),
        (&fields, Refusal::TooManyUnits),
        (&fields[..11], Refusal::TooManyUnits),
    ] {
        bytes.truncate(end);
        bytes.extend(behind);
        let mut out = [0x5A; 2];
        let k = count as u64 - 1;
        let unit = raw::unit(&bytes, k).expect("the last unit");
        assert_eq!((unit.at, unit.next), (last.start, last.end));
        assert_eq!(unit.ciphertext, ciphertext);
        assert_eq!(raw::ciphertext(&bytes, k), ciphertext);
        let answer = raw::fetch(&book.key, &bytes, k, &mut out);
        assert_eq!(answer, Err(Refusal::TagDiffers));
        for k in [count as u64, count as u64 + 1] {
            assert_eq!(raw::unit(&bytes, k), Err(refusal), "unit {k}");
            assert_eq!(raw::ciphertext(&bytes, k), 0..0, "unit {k}");
            let answer = raw::fetch(&book.key, &bytes, k, &mut out);
            assert_eq!(answer, Err(refusal), "unit {k}");
        }
        assert_eq!(out, [0x5A; 2]);
    }
}

/// Each byte of a small book of each kind changed, to all other values: refused, as by the reference, by checking and
/// by a page, and fetching hands out only what was written.
#[test]
fn every_byte_changed() {
    let mut random = Random::new(SEED + 9);
    for mut book in books_of_each_kind(&mut random, (1, 6)) {
        book.units = vec![unit(&mut random, 2, 1), unit(&mut random, 1, 0)];
        let (bytes, _) = written(&book);
        for at in 0..bytes.len() {
            for change in 1..=255 {
                let mut damaged = bytes.clone();
                damaged[at] ^= change;
                let name = format!("{:?}, byte {at} ^ {change:02X}", book.kind);
                let refused = checked(&book.key, &damaged, &name).expect_err(&name);
                page_gives(&book.key, &damaged, b"x", 24, &Err(refused), &name);
                if change.count_ones() == 1 || change == 0xFF {
                    for k in 0..3 {
                        let answer = fetched(&book.key, &damaged, Walked(k), ROOM, &name);
                        assert!(answer.is_err() || answer == of_book(&book, k), "{name}");
                        clearing::unit(&damaged, Walked(k), &name).ok();
                        part(&damaged, k, &name);
                    }
                }
            }
        }
    }
}

/// The byte behind the opening fields says the kind, for what stands at any place too; where it says none, that is
/// read as wide. A walk is refused there with 14, but for the byte that was written.
#[test]
fn the_first_tag_says_the_kind() {
    let mut random = Random::new(SEED + 10);
    for mut book in books_of_each_kind(&mut random, (2, 14)) {
        book.units = vec![unit(&mut random, 2, 1), unit(&mut random, 7, 0)];
        let ((bytes, _), places) = (written(&book), places(&book));
        let mut changed = bytes.clone();
        for tag in 0..=255 {
            changed[FIRST_UNIT] = tag;
            let name = format!("{:?}, {tag:02X}", book.kind);
            let kind = match tag {
                0x10 | 0x20 => Kind::Tag10,
                _ => Kind::Tag14,
            };
            let kept = kind == book.kind;
            for k in 0..3 {
                let expected = match tag == bytes[FIRST_UNIT] {
                    true => of_book(&book, k),
                    false => Err(14),
                };
                let answer = fetched(&book.key, &changed, Walked(k), ROOM, &name);
                assert_eq!(answer, expected, "{name}");
            }
            let which = Placed(1, places[1]);
            let unit = if kept { of_book(&book, 1) } else { Err(14) };
            let answer = fetched(&book.key, &changed, which, ROOM, &name);
            assert_eq!(answer, unit, "{name}");
            fetch_gives(&book.key, &changed, which, 0, &unit.and(Err(7)), &name);
            let answer = clearing::unit(&changed, which, &name);
            assert_eq!(answer.is_ok(), kept, "{name}");
            let which = Placed(2, places[2]);
            let refusal = if kept { 16 } else { 14 };
            fetching::refuses(&book.key, &changed, which, refusal, &name);
            clearing::refuses(&changed, which, refusal, &name);
        }
    }
}
