//! The two codes of a unit: any letters a to z, and so the same code twice. "Books with a pair like en, en, under
//! either header tag, join those that checking accepts", and "every book accepted before is accepted still". Old books
//! are the second implementation's.

mod common;

use common::checking::{accepts, check_gives, checked, refuses};
use common::clearing;
use common::fetching::{
    self, fetched, fetches, of, part, part_gives,
    Which::{Placed, Walked},
};
use common::paging::{self, paged, pages};
use common::parts::{
    books_of_each_kind, close_fields, random_book, some_book, unit_fields, written, Parts,
};
use common::spoiling::damage;
use common::writing::{unit, Call, Desk};
use reference::book::{places, Book, Kind, Unit};
use reference::check::check_under;
use reference::cipher::SUITES;
use reference::clear::Clear;
use reference::random::Random;
use reference::writer::Writer;
use sealed_book::raw::{self, FIRST_UNIT};
use sealed_book::{clear_unit, fetch, Refusal, Suite};

const SEED: u64 = 0x5041_4952;

/// The earlier rule: "Languages are letters a to z, and the two codes differ."
fn allowed_before(from: [u8; 2], to: [u8; 2]) -> bool {
    let letter = |byte: u8| (b'a'..=b'z').contains(&byte);
    [from, to].into_iter().flatten().all(letter) && from != to
}

/// All codes of two letters.
fn codes() -> impl Iterator<Item = [u8; 2]> {
    (b'a'..=b'z').flat_map(|first| (b'a'..=b'z').map(move |second| [first, second]))
}

/// Gives a unit these codes.
fn recode(unit: &mut Unit, [f0, f1, t0, t1]: [u8; 4]) {
    (unit.from, unit.to) = ([f0, f1], [t0, t1]);
}

/// The calls of a book: of each unit two blocks of the header, those of the text, and a tag; of the close three.
fn calls_of(book: &Book) -> u64 {
    let texts = book.units.iter().map(|unit| unit.text().len());
    let calls: usize = texts.map(|len| 3 + len.div_ceil(16)).sum();
    calls as u64 + 3
}

/// Has every call read the book as it was written: it is accepted, and each says what the book has.
fn reads_all(book: &Book, bytes: &[u8], name: &str) {
    let name = &format!("{:?}, {name}", book.kind);
    let count = book.units.len() as u64;
    accepts(&book.key, bytes, count, calls_of(book), name);
    pages(book, bytes, &book.units[0].source, name);
    let places = places(book);
    for (k, unit) in book.units.iter().enumerate() {
        let start = places[k] + book.kind.ciphertext_at();
        let expected = Clear {
            at: places[k],
            from: unit.from.to_vec(),
            to: unit.to.to_vec(),
            ciphertext: start..start + unit.text().len(),
            next: places[k + 1],
        };
        let ciphertext = part(bytes, k as u64, name);
        assert_eq!(ciphertext, expected.ciphertext, "{k}, {name}");
        for which in [Walked(k as u64), Placed(k as u64, places[k])] {
            fetches(&book.key, bytes, which, unit, name);
            let clear = clearing::unit(bytes, which, name);
            assert_eq!(clear.as_ref(), Ok(&expected), "{which:?}, {name}");
        }
    }
    for which in [Walked(count), Placed(count, places[book.units.len()])] {
        fetching::refuses(&book.key, bytes, which, 16, name);
        clearing::refuses(bytes, which, 16, name);
    }
    part_gives(bytes, count, 0..0, name);
}

/// Has the library write the book call by call, beside the second implementation's writer, with guards.
fn writes(random: &mut Random, book: &Book, name: &str) -> Vec<u8> {
    let len = places(book)[book.units.len()] + book.kind.close_len();
    let mut desk = Desk::new(random, len + 9);
    desk.passes(&Call::start(book), len, name);
    for unit in &book.units {
        desk.passes(&Call::Add(unit.clone()), len, name);
    }
    desk.passes(&Call::Close, len, name);
    desk.assert_holds(book, name);
    desk.buffer.truncate(len);
    desk.buffer
}

/// Known value 8 from en to en: as many bytes and calls, and the codes in the clear.
#[test]
fn from_en_to_en() {
    let mut random = Random::new(SEED);
    for (kind, len, head) in [
        (Kind::Tag10, 84, &b"\x10\0\x06\0\0enen"[..]),
        (Kind::Tag14, 88, b"\x14\0\x08\0\0\0\0enen"),
    ] {
        for (cipher, steps) in SUITES {
            let mut book = Book {
                cipher,
                steps,
                ..Book::known(kind, random.bytes())
            };
            book.units[0].to = *b"en";
            let name = format!("suite {:?}", (cipher, steps));
            let (bytes, writer) = written(&book);
            assert_eq!((bytes.len(), writer.calls), (len, 7), "{name}");
            assert_eq!(bytes[16..16 + head.len()], *head, "{name}");
            assert_eq!(bytes, book.laid_out().0, "{name}");
            reads_all(&book, &bytes, &name);
        }
    }
}

/// The same in the crate for Rust. A code that has not two bytes is refused there as one with a byte that is no letter,
/// also where both are the same.
#[test]
fn in_the_crate() {
    let key = [9; 16];
    let mut writer = sealed_book::Writer::start(Suite::SCREAM_10, &key, 7).expect("a writer");
    for (from, to) in [
        ("", ""),
        ("e", "e"),
        ("eng", "eng"),
        ("en", ""),
        ("EN", "EN"),
        ("en", "eN"),
        ("ä", "ä"),
        ("\0\0", "\0\0"),
    ] {
        let answer = writer.add(from, to, "valve", "valve");
        assert_eq!(answer, Err(Refusal::LanguagesNotAllowed), "{from}, {to}");
        assert_eq!((writer.units(), writer.len()), (0, 16), "{from}, {to}");
    }
    assert_eq!(writer.add("en", "en", "valve", "Ventil"), Ok(0));
    let (bytes, receipt) = writer.close().expect("a book");
    let mut book = Book::known(Kind::NEWEST, key);
    book.units[0].to = *b"en";
    assert_eq!(bytes, book.laid_out().0);
    assert_eq!((receipt.bytes, receipt.units, receipt.calls), (88, 1, 7));
    book.kind = Kind::Tag10;
    for bytes in [bytes, book.laid_out().0] {
        let clear = clear_unit(&bytes, 0).expect("a unit");
        let codes = (clear.source_language(), clear.target_language());
        assert_eq!(codes, ("en", "en"));
        let unit = fetch(&key, &bytes, 0).expect("a unit");
        let codes = (unit.source_language(), unit.target_language());
        assert_eq!(codes, ("en", "en"));
        assert_eq!(unit.target_text(), Ok("Ventil"));
        let book = sealed_book::Book::check(&key, &bytes[..]).expect("a book");
        assert_eq!((book.len(), book.calls()), (1, 7));
        assert_eq!(book.fetch(0), Ok(unit));
        let page = book.page("valves").expect("a page");
        assert_eq!(page, "    5   857\n");
    }
}

/// Units with equal codes at each of four places, beside others, in books of each kind.
#[test]
fn beside_other_pairs() {
    let mut random = Random::new(SEED + 1);
    for suite in SUITES {
        for equal in 0..16 {
            for mut book in books_of_each_kind(&mut random, suite) {
                let name = format!("{suite:?}, {equal:04b}, seed {:X}", SEED + 1);
                for (k, (s, t)) in [(5, 6), (14, 0), (1, 40), (30, 33)].into_iter().enumerate() {
                    let mut unit = unit(&mut random, s, t);
                    match equal >> k & 1 {
                        1 => recode(&mut unit, random.one_of(&[*b"enen", *b"dede", *b"zzzz"])),
                        _ => recode(&mut unit, random.one_of(&[*b"ende", *b"deen", *b"ener"])),
                    }
                    book.units.push(unit);
                }
                let (bytes, _) = written(&book);
                assert_eq!(bytes, book.laid_out().0, "{name}");
                if book.kind == Kind::NEWEST {
                    assert_eq!(writes(&mut random, &book, &name), bytes, "{name}");
                }
                reads_all(&book, &bytes, &name);
            }
        }
    }
}

/// Every code with itself, from aa to zz, through every call, in a book of each kind.
#[test]
fn every_code_with_itself() {
    let mut random = Random::new(SEED + 2);
    let mut count = 0;
    for code in codes() {
        let name = String::from_utf8_lossy(&code).into_owned();
        let suite = random.one_of(&SUITES);
        for mut book in books_of_each_kind(&mut random, suite) {
            book.units = vec![unit(&mut random, 3, 4), unit(&mut random, 2, 0)];
            (book.units[0].from, book.units[0].to) = (code, code);
            let (bytes, _) = written(&book);
            if book.kind == Kind::NEWEST {
                assert_eq!(writes(&mut random, &book, &name), bytes, "{name}");
            }
            reads_all(&book, &bytes, &name);
            count += 1;
        }
    }
    assert_eq!(count, 2 * 26 * 26);
}

/// The same code twice, with each byte that is no letter at its first place, its second, and both: 11 from every call,
/// and an empty part from that for ciphertexts.
#[test]
fn no_letter_in_equal_codes() {
    let mut random = Random::new(SEED + 3);
    let mut count = 0;
    for byte in (0..=255).filter(|byte: &u8| !byte.is_ascii_lowercase()) {
        for code in [[byte, b'n'], [b'e', byte], [byte; 2]] {
            let suite = random.one_of(&SUITES);
            let name = format!("{code:02X?}");
            let mut unit = unit(&mut random, 4, 3);
            (unit.from, unit.to) = (code, code);
            for mut book in books_of_each_kind(&mut random, suite) {
                book.units = (0..3)
                    .map(|_| common::writing::unit(&mut random, 3, 2))
                    .collect();
                book.units[1] = unit.clone();
                // laid out whatever the units are
                let (bytes, _) = book.laid_out();
                let name = format!("{:?}, {name}", book.kind);
                refuses(&book.key, &bytes, 11, &name);
                for room in [0, 36] {
                    let page = paged(&book.key, &bytes, b"valve", room, &name);
                    assert_eq!(page, Err(11), "{name}");
                }
                fetches(&book.key, &bytes, Walked(0), &book.units[0], &name);
                let at = places(&book)[1];
                for which in [Walked(1), Walked(2), Walked(3), Placed(1, at)] {
                    fetching::refuses(&book.key, &bytes, which, 11, &name);
                    clearing::refuses(&bytes, which, 11, &name);
                }
                for k in 1..4 {
                    part_gives(&bytes, k, 0..0, &name);
                }
            }
            let book = Book::random(&mut random, suite);
            let mut desk = Desk::new(&mut random, 100);
            desk.passes(&Call::start(&book), 100, &name);
            desk.refuses(&Call::Add(unit), 100, 11, &name);
            desk.assert_holds(&book, &name);
            count += 1;
        }
    }
    assert_eq!(count, 3 * (256 - 26));
}

/// What is changed in a unit.
#[derive(Clone, Copy, Debug, PartialEq)]
enum Change {
    Nothing,
    /// Before it is sealed: the number in its header, or a text without a source.
    Number,
    Text,
    /// Behind that: bits of a byte of its header, of field 11 or of field 12.
    Byte(usize, usize, u8),
}

/// Tag and length of the header.
const HEADER: [Change; 2] = [Change::Byte(0, 0, 1), Change::Byte(0, 2, 1)];

/// The changes with their refusals: where the codes are letters, at the unit and on the way to the next one; and where
/// they are not.
const CHANGES: [(Change, Option<u32>, Option<u32>, u32); 10] = [
    (Change::Nothing, None, None, 11),
    (HEADER[0], Some(14), Some(14), 14),
    (HEADER[1], Some(14), Some(14), 14),
    (Change::Number, Some(15), Some(15), 15),
    // tag and length of field 11, and the tag of field 12
    (Change::Byte(1, 0, 1), Some(14), Some(14), 11),
    (Change::Byte(1, 1, 0xFF), Some(14), Some(14), 11),
    (Change::Byte(2, 0, 1), Some(14), Some(14), 11),
    // ciphertext and tag
    (Change::Byte(1, 4, 1), Some(8), None, 11),
    (Change::Byte(2, 18, 0x80), Some(8), None, 11),
    (Change::Text, Some(12), None, 11),
];

/// Unit 1 of a book with these codes and this change, between two others.
fn with_change(book: &Book, codes: [u8; 4], change: Change) -> Vec<u8> {
    let number = if change == Change::Number { 2 } else { 1 };
    let text = match change {
        Change::Text => vec![0, 0, 7],
        _ => book.units[1].text(),
    };
    let mut fields = unit_fields(book, 1, number, codes, &text);
    if let Change::Byte(field, at, bits) = change {
        fields[field][at] ^= bits;
    }
    let mut parts = Parts::of(book);
    parts.units[1] = fields.concat();
    parts.joined()
}

/// Of equal codes with a byte that is no letter, 11 has the place that it has in the order; of equal codes of letters,
/// what comes behind it is given. In checking, fetching, the page and in the clear: 14 of the header, 13, 15, 11, 14 of
/// the rest, 8, 12.
#[test]
fn order_in_reading() {
    let mut random = Random::new(SEED + 4);
    for (codes, letters) in [
        (b"enen", true),
        (b"aaaa", true),
        (b"eNeN", false),
        (b"{n{n", false),
        (b"\0\0\0\0", false),
    ] {
        for (change, at_unit, walked, no_letter) in CHANGES {
            let (at_unit, walked) = match letters {
                true => (at_unit, walked),
                false => (Some(no_letter), Some(no_letter)),
            };
            for mut book in books_of_each_kind(&mut random, (1, 8)) {
                let name = format!("{:?}, {codes:02X?}, {change:?}", book.kind);
                book.units = (0..3).map(|_| unit(&mut random, 3, 2)).collect();
                let bytes = with_change(&book, *codes, change);
                let answer = checked(&book.key, &bytes, &name);
                assert_eq!(answer.err(), at_unit, "{name}");
                let page = paged(&book.key, &bytes, b"valve", 36, &name);
                assert_eq!(page.err(), at_unit, "{name}");
                let at = places(&book)[1];
                for which in [Walked(1), Placed(1, at)] {
                    let answer = fetched(&book.key, &bytes, which, 60, &name);
                    assert_eq!(answer.err(), at_unit, "{which:?}, {name}");
                    let answer = clearing::unit(&bytes, which, &name);
                    assert_eq!(answer.err(), walked, "{which:?}, {name}");
                }
                let answer = fetched(&book.key, &bytes, Walked(2), 60, &name);
                let expected = walked.map_or(Ok(of(&book.units[2])), Err);
                assert_eq!(answer, expected, "{name}");
                for k in [1, 2] {
                    let part = part(&bytes, k, &name);
                    assert_eq!(part.is_empty(), walked.is_some(), "{name}");
                }
                // as the unit of a number that no book has: behind 14 of the header, and before all others
                let number = if HEADER.contains(&change) { 14 } else { 13 };
                for most in [16_777_215, u64::MAX] {
                    fetching::refuses(&book.key, &bytes, Placed(most, at), number, &name);
                    clearing::refuses(&bytes, Placed(most, at), number, &name);
                }
            }
        }
    }
}

/// The same in adding: 9, 10, 11, 12, 13, 7. Buffer and writer stay.
#[test]
fn order_in_adding() {
    let mut random = Random::new(SEED + 5);
    for set in 0..32 {
        let has = |i: usize| set >> i & 1 == 1;
        for (codes, letters) in [
            (b"enen", true),
            (b"aaaa", true),
            (b"zzzz", true),
            (b"eNeN", false),
            (b"`e`e", false),
            (b"\0\0\0\0", false),
        ] {
            let (cipher, steps) = random.one_of(&SUITES);
            let units = if has(3) { 16_777_215 } else { 5 };
            let writer = Writer {
                cipher,
                steps,
                key: random.bytes(),
                number: random.number(),
                place: if has(0) { 15 } else { 20 },
                units,
                calls: 0,
                closed: has(1),
            };
            let mut unit = unit(&mut random, if has(2) { 0 } else { 3 }, 4);
            recode(&mut unit, *codes);
            let len = if has(4) { 20 + 41 } else { 20 + 42 };
            let numbers = [9, 10, 12, 13, 7];
            let first = numbers.into_iter().enumerate().find(|(i, _)| has(*i));
            let expected = match first {
                Some((_, number @ (9 | 10))) => Err(number),
                _ if !letters => Err(11),
                Some((_, number)) => Err(number),
                None => Ok(()),
            };
            let mut desk = Desk::with(&mut random, writer, 90);
            let name = format!("{codes:02X?}, set {set:05b}, seed {:X}", SEED + 5);
            let answer = desk.call(&Call::Add(unit), len, &name);
            assert_eq!(answer, expected, "reference: {name}");
        }
    }
}

/// The codes are sealed along: changed from en, en to en, de in the header of a sealed unit, or from en, de to en, en,
/// the tag differs; changed back the book is accepted. Each letter of a code, to every other letter.
#[test]
fn codes_are_sealed_along() {
    let mut random = Random::new(SEED + 6);
    for (codes, other) in [(*b"enen", *b"ende"), (*b"ende", *b"enen")] {
        for suite in SUITES {
            for mut book in books_of_each_kind(&mut random, suite) {
                book.units = (0..3).map(|_| unit(&mut random, 9, 8)).collect();
                recode(&mut book.units[1], codes);
                let (mut bytes, _) = written(&book);
                let name = format!("{suite:?}");
                reads_all(&book, &bytes, &name);
                let at = places(&book)[1] + 3 + book.kind.number_bytes();
                let name = format!("{:?}, {name}", book.kind);
                assert_eq!(bytes[at..at + 4], codes, "{name}");

                bytes[at..at + 4].copy_from_slice(&other);
                tag_differs(&book, &bytes, other, &name);
                bytes[at..at + 4].copy_from_slice(&codes);
                for place in 0..4 {
                    for letter in (b'a'..=b'z').filter(|letter| *letter != codes[place]) {
                        bytes[at + place] = letter;
                        let mut changed = codes;
                        changed[place] = letter;
                        tag_differs(&book, &bytes, changed, &name);
                    }
                    bytes[at + place] = codes[place];
                }
                reads_all(&book, &bytes, "changed back");
            }
        }
    }
}

/// A book with other codes in the header of unit 1, which are said in the clear: 8 from checking, the page and a fetch
/// of that unit. The others are handed out.
fn tag_differs(book: &Book, bytes: &[u8], codes: [u8; 4], name: &str) {
    let name = format!("{codes:02X?}, {name}");
    refuses(&book.key, bytes, 8, &name);
    let page = paged(&book.key, bytes, b"valve", 36, &name);
    assert_eq!(page, Err(8), "{name}");
    let at = places(book)[1];
    for which in [Walked(1), Placed(1, at)] {
        fetching::refuses(&book.key, bytes, which, 8, &name);
        let clear = clearing::unit(bytes, which, &name).expect("a unit");
        assert_eq!([clear.from, clear.to].concat(), codes, "{name}");
    }
    for k in [0, 2] {
        let unit = &book.units[k];
        fetches(&book.key, bytes, Walked(k as u64), unit, &name);
    }
}

/// The same units with other codes: ciphertexts, places, count, call total and page are the same, and of the tags those
/// of the units that have other codes are not.
#[test]
fn codes_change_tags_alone() {
    let mut random = Random::new(SEED + 7);
    for suite in SUITES {
        for mut book in books_of_each_kind(&mut random, suite) {
            let name = format!("{suite:?}, {:?}", book.kind);
            book.units = (0..300).map(|_| unit(&mut random, 7, 9)).collect();
            for (k, unit) in book.units.iter_mut().enumerate() {
                recode(unit, if k % 3 == 0 { *b"enen" } else { *b"ende" });
            }
            let (equal, writer) = written(&book);
            accepts(&book.key, &equal, 300, writer.calls, &name);
            pages(&book, &equal, b"valve", &name);
            for unit in &mut book.units {
                recode(unit, *b"ende");
            }
            let (others, of_others) = written(&book);
            assert_eq!((writer.calls, equal.len()), (of_others.calls, others.len()));
            accepts(&book.key, &others, 300, writer.calls, &name);
            let page = paging::of_book(&book, b"valve");
            paging::page_gives(&book.key, &equal, b"valve", page.len(), &Ok(page), &name);
            let places = places(&book);
            for k in 0..300 {
                let unit = places[k]..places[k + 1];
                let (one, other) = (&equal[unit.clone()], &others[unit]);
                assert_eq!(one == other, k % 3 > 0, "unit {k}, {name}");
                // the codes and the tag
                let (codes, tag) = (3 + book.kind.number_bytes(), one.len() - 16);
                assert_eq!(
                    one[codes + 4..tag],
                    other[codes + 4..tag],
                    "unit {k}, {name}"
                );
                assert_eq!(one[tag..] == other[tag..], k % 3 > 0, "unit {k}, {name}");
            }
            assert_eq!(equal[places[300]..], others[places[300]..], "{name}");
        }
    }
}

/// What checking said by the earlier rule, which the second implementation applies to the same book.
fn before(key: &[u8], bytes: &[u8]) -> Result<(u64, u64), u32> {
    check_under(allowed_before, key, bytes)
}

/// Random books of either kind without a unit whose codes are the same, whole and damaged: "Every book accepted before
/// is accepted still", with the same numbers; and what was refused with another number than 11 still is.
#[test]
fn books_accepted_before() {
    let mut random = Random::new(SEED + 8);
    let mut counts = [0; 3];
    for case in 0..3_000 {
        let name = format!("case {case}, seed {:X}", SEED + 8);
        let suite = random.one_of(&SUITES);
        let units = random.below(5);
        let mut book = random_book(&mut random, suite, units, 30);
        for unit in &mut book.units {
            while unit.from == unit.to {
                unit.to = random.one_of(&[*b"en", *b"de", *b"fr"]);
            }
        }
        let (mut bytes, writer) = written(&book);
        let whole = Ok((writer.units, writer.calls));
        assert_eq!(before(&book.key, &bytes), whole, "reference: {name}");
        check_gives(&book.key, &bytes, whole, &name);
        if case % 3 > 0 {
            let other = bytes.clone();
            for _ in 0..1 + random.below(2) {
                damage(&mut random, &mut bytes, &other);
            }
        }
        let before = before(&book.key, &bytes);
        let now = checked(&book.key, &bytes, &name);
        match before {
            Ok(_) => counts[0] += 1,
            Err(11) => counts[1] += 1,
            Err(_) => counts[2] += 1,
        }
        // damage may have made two codes the same
        if before != Err(11) {
            assert_eq!(now, before, "{name}");
        }
    }
    assert!(counts.into_iter().all(|count| count > 20), "{counts:?}");
}

/// Random books of either kind with a unit or more whose codes are the same: refused with 11 before, and accepted with
/// their units and calls. With a byte that is no letter beside, 11 is given as before.
#[test]
fn books_refused_before_for_equal_codes() {
    let mut random = Random::new(SEED + 9);
    let mut counts = [0; 2];
    for case in 0..2_000 {
        let name = format!("case {case}, seed {:X}", SEED + 9);
        let suite = random.one_of(&SUITES);
        let units = 1 + random.below(4);
        let mut book = random_book(&mut random, suite, units, 30);
        let equal = random.below(units);
        book.units[equal].to = book.units[equal].from;
        let (bytes, writer) = written(&book);
        assert_eq!(before(&book.key, &bytes), Err(11), "reference: {name}");
        let whole = (writer.units, writer.calls);
        assert_eq!(whole, (units as u64, calls_of(&book)), "{name}");
        accepts(&book.key, &bytes, whole.0, whole.1, &name);
        counts[usize::from(book.kind == Kind::NEWEST)] += 1;

        let bad = random.below(units);
        book.units[bad].from[random.below(2)] = random.one_of(&[0, b'A', b'`', b'{', 0xE5]);
        if random.below(2) == 0 {
            book.units[bad].to = book.units[bad].from;
        }
        let (bytes, _) = book.laid_out();
        assert_eq!(before(&book.key, &bytes), Err(11), "reference: {name}");
        refuses(&book.key, &bytes, 11, &name);
    }
    assert!(counts.into_iter().all(|count| count > 500), "{counts:?}");
}

/// Every pair of two codes of the letters a, b and z, in one book of each kind.
#[test]
fn all_pairs_of_some_letters() {
    let mut random = Random::new(SEED + 10);
    let letters = |code: &[u8; 2]| code.iter().all(|letter| b"abz".contains(letter));
    let some: Vec<[u8; 2]> = codes().filter(letters).collect();
    assert_eq!(some.len(), 9);
    let suite = random.one_of(&SUITES);
    for mut book in books_of_each_kind(&mut random, suite) {
        for from in &some {
            for to in &some {
                let mut unit = unit(&mut random, 2, 1);
                (unit.from, unit.to) = (*from, *to);
                book.units.push(unit);
            }
        }
        let (bytes, _) = written(&book);
        reads_all(&book, &bytes, "81 pairs");
    }
}

/// Every pair of two codes of letters, in one book that the library writes, checks and hands out again. The calls on
/// one unit are made without guards, since the book has 16 megabytes.
#[test]
fn all_pairs() {
    let mut random = Random::new(SEED + 12);
    let mut book = Book::random(&mut random, (1, 6));
    for from in codes() {
        for to in codes() {
            book.units.push(Unit {
                from,
                to,
                source: vec![from[0] ^ to[1]],
                target: Vec::new(),
            });
        }
    }
    let (bytes, writer) = written(&book);
    let count = 676 * 676;
    assert_eq!((writer.units, writer.calls), (count, 4 * count + 3));
    check_gives(&book.key, &bytes, Ok((count, writer.calls)), "all pairs");
    let (mut at, mut equal) = (FIRST_UNIT, 0);
    for (k, unit) in book.units.iter().enumerate() {
        let clear = raw::unit_at(&bytes, k as u64, at).expect("a unit");
        let codes = [&clear.from, &clear.to].map(|code| code.as_str().as_bytes());
        assert_eq!(codes, [unit.from, unit.to], "unit {k}");
        let mut out = [0];
        let answer = raw::fetch_at(&book.key, &bytes, k as u64, at, &mut out);
        assert_eq!(answer.map(|fetched| fetched.next), Ok(clear.next));
        assert_eq!(out, unit.source[..], "unit {k}");
        equal += usize::from(codes[0] == codes[1]);
        at = clear.next;
    }
    assert_eq!((equal, at + 26), (676, bytes.len()));
}

/// A close behind a unit with equal codes that says another count, and none: 15 and 14, as behind any other unit.
#[test]
fn behind_equal_codes() {
    let mut random = Random::new(SEED + 11);
    for suite in SUITES {
        let mut book = some_book(&mut random, suite);
        book.units = vec![unit(&mut random, 6, 2)];
        recode(&mut book.units[0], *b"enen");
        let parts = Parts::of(&book);
        let unit = [&parts.opening[..], &parts.units[0]].concat();
        refuses(&book.key, &unit, 14, "no close");
        for (count, number) in [(0, 15), (2, 15), (1, 8)] {
            // sealed for the count that it says, or for another
            let nonce = if number == 8 { 2 } else { count };
            let close = close_fields(&book, nonce, count).concat();
            let bytes = [&unit[..], &close].concat();
            refuses(&book.key, &bytes, number, "another close");
            fetching::refuses(&book.key, &bytes, Walked(1), number, "another close");
            fetches(&book.key, &bytes, Walked(0), &book.units[0], "its unit");
        }
    }
}
