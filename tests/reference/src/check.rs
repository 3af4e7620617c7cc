//! Checking a book: one walk over its bytes, with each unit and the close opened.
//!
//! Quoted sentences are the scope's. Refusals are given by their numbers. Nothing is laid out here, so
//! that checking can be held against `book`.

use std::ops::RangeInclusive;

use crate::book::{languages_allowed, lengths_allowed, Kind, MOST_UNITS};
use crate::cipher::listed;
use crate::sealing::{call_count, open};

/// "Checking takes key and book, writes nothing, returns unit count and call total. It reads in byte
/// order." Or the first refusal.
pub fn check(key: &[u8], book: &[u8]) -> Result<(u64, u64), u32> {
    check_under(languages_allowed, key, book)
}

/// The same with any rule for the two codes of a unit, so that two rules can be held against each other.
pub fn check_under(
    allowed: fn([u8; 2], [u8; 2]) -> bool,
    key: &[u8],
    book: &[u8],
) -> Result<(u64, u64), u32> {
    if key.len() != 16 {
        return Err(2);
    }
    let mut place = 0;
    // "14 of 01 and 02; 1"
    let number = field(book, &mut place, 0x01, 8..=8)?;
    let suite = field(book, &mut place, 0x02, 2..=2)?;
    let (cipher, steps) = (suite[0], suite[1]);
    if !listed(cipher, steps) {
        return Err(1);
    }
    let opening = &book[..place];
    // "Checker, fetcher and page read both, one kind per book": that of the first tag behind
    let kind = Kind::of(book).ok_or(14u32)?;

    // the text of a unit, or of the close; "the header sealed along is fields 01, 02 and 10 (25 bytes)
    // or 20 (21 bytes)", with 14 (27 bytes) and 21 (23 bytes) in a wide book
    let opened = |units: usize, head: &[u8], ciphertext: &[u8], tag: &[u8]| {
        let nonce = [number, &(units as u32).to_be_bytes()].concat();
        let header = [opening, head].concat();
        let sealed = [ciphertext, tag].concat();
        let m = ciphertext.len();
        let text = open(cipher, steps, key, &nonce, &header, &sealed, m)?;
        Ok::<_, u32>((text, call_count(header.len(), m)))
    };

    let (mut units, mut calls) = (0, 0);
    while book.get(place) != Some(&kind.close_tag()) {
        // "each unit: 14 of its header, 13, 15, 11, 14 of the rest, 8, 12"
        let start = place;
        let len = kind.number_bytes() + 4;
        let value = field(book, &mut place, kind.header_tag(), len..=len)?;
        let head = &book[start..place];
        if units == MOST_UNITS {
            return Err(13);
        }
        // "an old number means the same number after widening"
        let (number, languages) = value.split_at(kind.number_bytes());
        if number_of(number) != units {
            return Err(15);
        }
        let [f0, f1, t0, t1] = languages.try_into().expect("4 bytes");
        if !allowed([f0, f1], [t0, t1]) {
            return Err(11);
        }
        let ciphertext = field(book, &mut place, 0x11, 3..=8_194)?;
        let tag = field(book, &mut place, 0x12, 16..=16)?;
        let (text, count) = opened(units, head, ciphertext, tag)?;
        // "t is what s leaves of the text, and an s longer than the bytes after it is out of range"
        let (s, segments) = text.split_at(2);
        let s = number_of(s);
        if s > segments.len() || !lengths_allowed(s, segments.len() - s) {
            return Err(12);
        }
        units += 1;
        calls += count;
    }

    // "close: 14 of both its fields, 15, 8, then 14 for bytes left over"
    let start = place;
    let len = kind.number_bytes();
    let count = field(book, &mut place, kind.close_tag(), len..=len)?;
    let head = &book[start..place];
    let tag = field(book, &mut place, 0x12, 16..=16)?;
    if number_of(count) != units {
        return Err(15);
    }
    let (_, count) = opened(units, head, &[], tag)?;
    calls += count;
    if place < book.len() {
        return Err(14);
    }
    Ok((units as u64, calls as u64))
}

/// The value of the field at the place, which is moved behind it; refusal 14 where the tag is another,
/// the length not one of these, or bytes are missing.
pub(crate) fn field<'a>(
    book: &'a [u8],
    place: &mut usize,
    tag: u8,
    lengths: RangeInclusive<usize>,
) -> Result<&'a [u8], u32> {
    let value = *place + 3;
    let head = book.get(*place..value).ok_or(14u32)?;
    let len = number_of(&head[1..]);
    if head[0] != tag || !lengths.contains(&len) {
        return Err(14);
    }
    *place = value + len;
    book.get(value..*place).ok_or(14)
}

/// "All numbers in values and texts are big-endian too."
pub(crate) fn number_of(bytes: &[u8]) -> usize {
    let add = |number, byte: &u8| 256 * number + usize::from(*byte);
    bytes.iter().fold(0, add)
}

#[cfg(test)]
mod tests {
    use super::*;
    use crate::book::{self, Book, Unit};
    use crate::cipher::SUITES;
    use crate::random::Random;
    use crate::sealing::seal;

    const KEY: [u8; 16] = [9; 16];

    /// Known value 8's book: 84 bytes as printed, with fields at 0, 11, 16, 25, 41, 60 and 65; 88 bytes as the
    /// writer makes it, with fields at 0, 11, 16, 27, 43, 62 and 69.
    fn known(kind: Kind) -> Vec<u8> {
        Book::known(kind, KEY).laid_out().0
    }

    /// The known book with these bytes from a place on.
    fn with(kind: Kind, at: usize, bytes: &[u8]) -> Vec<u8> {
        let mut book = known(kind);
        book[at..at + bytes.len()].copy_from_slice(bytes);
        book
    }

    #[test]
    fn known_book() {
        for (kind, len) in [(Kind::Tag10, 84), (Kind::Tag14, 88)] {
            assert_eq!(known(kind).len(), len);
            assert_eq!(check(&KEY, &known(kind)), Ok((1, 7)));
        }
    }

    /// In an old book and a wide one.
    #[test]
    fn each_refusal() {
        for (old, wide, bytes, number) in [
            (0, 0, &[2][..], 14),
            (2, 2, &[7], 14),
            (11, 11, &[1], 14),
            (13, 13, &[3], 14),
            (14, 14, &[3], 1),
            (15, 15, &[11], 1),
            (10, 10, &[8], 8),
            (15, 15, &[8], 8),
            (16, 16, &[0x11], 14),
            (16, 16, &[0x12], 14),
            (16, 16, &[0x15], 14),
            (16, 16, &[0x20], 14),
            (16, 16, &[0x21], 14),
            (18, 18, &[5], 14),
            (18, 18, &[7], 14),
            (19, 19, &[1], 15),
            (20, 20, &[1], 15),
            (20, 21, &[1], 15),
            (20, 22, &[1], 15),
            (21, 23, b"deen", 8),
            (21, 23, b"eNde", 11),
            (21, 23, b"dede", 8),
            (21, 23, b"enen", 8),
            (21, 23, b"eNeN", 11),
            (21, 23, b"\0\0\0\0", 11),
            (25, 27, &[0x12], 14),
            (26, 28, &[0, 2], 14),
            (26, 28, &[0x20, 3], 14),
            (27, 29, &[12], 14),
            (28, 30, &[0; 13], 8),
            (41, 43, &[0x11], 14),
            (43, 45, &[15], 14),
            (44, 46, &[0; 16], 8),
            (60, 62, &[0x22], 14),
            (62, 64, &[3], 14),
            (63, 65, &[1], 15),
            (63, 66, &[1], 15),
            (63, 67, &[1], 15),
            (64, 68, &[0], 15),
            (65, 69, &[0x11], 14),
            (67, 71, &[15], 14),
            (68, 72, &[0; 16], 8),
        ] {
            let answer = check(&KEY, &with(Kind::Tag10, old, bytes));
            assert_eq!(answer, Err(number), "{bytes:?} at {old}");
            let answer = check(&KEY, &with(Kind::Tag14, wide, bytes));
            assert_eq!(answer, Err(number), "{bytes:?} at {wide}, wide");
        }
        // the other kind's tag and length: of the close, and of the header, which is then read as that kind's,
        // with number 00 00 65 6E or languages 00 00 and 65 6E
        for (kind, at, bytes, number) in [
            (Kind::Tag10, 60, [0x21, 0, 4], 14),
            (Kind::Tag10, 60, [0x21, 0, 2], 14),
            (Kind::Tag10, 16, [0x14, 0, 6], 14),
            (Kind::Tag10, 16, [0x14, 0, 8], 15),
            (Kind::Tag14, 62, [0x20, 0, 2], 14),
            (Kind::Tag14, 62, [0x20, 0, 4], 14),
            (Kind::Tag14, 16, [0x10, 0, 8], 14),
            (Kind::Tag14, 16, [0x10, 0, 6], 11),
        ] {
            let answer = check(&KEY, &with(kind, at, &bytes));
            assert_eq!(answer, Err(number), "{kind:?}, {bytes:?} at {at}");
        }
        for kind in Kind::ALL {
            let known = known(kind);
            for len in 0..known.len() {
                assert_eq!(check(&KEY, &known[..len]), Err(14), "{len} bytes");
            }
            assert_eq!(check(&KEY, &[&known[..], &[0]].concat()), Err(14));
            assert_eq!(check(&KEY[1..], &known), Err(2));
        }
        assert_eq!(check(&[1; 17], &[]), Err(2));
    }

    /// Units of both kinds in one book, and the close of another kind, each sealed with its own header: the
    /// first tag of another kind is refused with 14.
    #[test]
    fn one_kind_per_book() {
        let book = Book::known(Kind::NEWEST, KEY);
        let unit = &book.units[0];
        for first in Kind::ALL {
            for close in Kind::ALL {
                // a book without units, which either close may end
                let bytes = [book.opening(), book.close(close, 0).0].concat();
                assert_eq!(check(&KEY, &bytes), Ok((0, 3)), "{close:?}");
                for second in Kind::ALL {
                    let one = [book.opening(), book.unit(first, 0, unit).0].concat();
                    let answer = check(&KEY, &[&one[..], &book.close(close, 1).0].concat());
                    let expected = if first == close { Ok((1, 7)) } else { Err(14) };
                    assert_eq!(answer, expected, "{first:?}, {close:?}");
                    let two = [one, book.unit(second, 1, unit).0].concat();
                    let answer = check(&KEY, &[&two[..], &book.close(close, 2).0].concat());
                    let expected = match first == second && second == close {
                        true => Ok((2, 11)),
                        false => Err(14),
                    };
                    assert_eq!(answer, expected, "{first:?}, {second:?}, {close:?}");
                }
            }
        }
    }

    /// A text with an s that is out of range, sealed as a unit's.
    #[test]
    fn lengths_out_of_range() {
        let opening = &known(Kind::Tag14)[..16];
        for (s, after, number) in [
            (0, 1, 12),
            (1, 1, 14),
            (2, 1, 12),
            (11, 11, 14),
            (12, 11, 12),
            (0xFFFF, 11, 12),
            (4_096, 4_097, 14),
            (4_097, 4_097, 12),
            (4_096, 8_192, 14),
            (4_095, 8_192, 12),
            (4_097, 8_192, 12),
            (1, 4_097, 14),
            (1, 4_098, 12),
        ] {
            let mut text = (s as u16).to_be_bytes().to_vec();
            text.resize(2 + after, 1);
            let head = b"\x14\0\x08\0\0\0\0ende";
            let header = [opening, head].concat();
            let nonce = [0, 0, 0, 0, 0, 0, 0, 7, 0, 0, 0, 0];
            let m = text.len();
            let sealed = seal(1, 10, &KEY, &nonce, &header, &text, m + 16);
            let (sealed, _) = sealed.unwrap();
            let (ciphertext, tag) = sealed.split_at(m);
            let fields = [book::field(0x11, ciphertext), book::field(0x12, tag)].concat();
            // with no close behind it: 14 where the unit is accepted
            let answer = check(&KEY, &[&header, &fields[..]].concat());
            assert_eq!(answer, Err(number), "{s} with {after} bytes after it");
        }
    }

    /// Books of either kind laid out from a unit that is not allowed, from the longest that is, and from units
    /// whose codes are the same.
    #[test]
    fn units_not_allowed() {
        for (from, to, s, t, expected) in [
            (b"en", b"de", 4_096, 4_096, Ok((1, 519))),
            (b"en", b"de", 4_096, 4_097, Err(14)),
            (b"en", b"de", 1, 4_097, Err(12)),
            (b"en", b"de", 4_097, 0, Err(12)),
            (b"en", b"de", 0, 3, Err(12)),
            (b"en", b"dE", 1, 0, Err(11)),
            (b"en", b"en", 1, 0, Ok((1, 7))),
            (b"en", b"en", 4_096, 4_096, Ok((1, 519))),
            (b"en", b"en", 0, 3, Err(12)),
            (b"aa", b"aa", 1, 0, Ok((1, 7))),
            (b"zz", b"zz", 1, 0, Ok((1, 7))),
            (b"eN", b"eN", 1, 0, Err(11)),
            (b"e{", b"e{", 0, 3, Err(11)),
            (b"eN", b"eN", 4_096, 4_097, Err(11)),
        ] {
            for kind in Kind::ALL {
                let mut book = Book::random(&mut Random::new(13), (1, 6));
                book.kind = kind;
                book.units.push(Unit {
                    from: *from,
                    to: *to,
                    source: vec![1; s],
                    target: vec![2; t],
                });
                let (bytes, _) = book.laid_out();
                let name = format!("{kind:?}, {from:?}, {to:?}, ({s}, {t})");
                assert_eq!(check(&book.key, &bytes), expected, "{name}");
                let again = Book::taken_apart(&book.key, &bytes);
                assert_eq!(again.is_some(), expected.is_ok(), "{name}");
            }
        }
    }

    /// What is accepted is what some book is laid out as, and the counts are those of the layout.
    #[test]
    fn accepted_is_what_is_laid_out() {
        let mut random = Random::new(14);
        let mut accepted = 0;
        for (i, suite) in [SUITES, SUITES].concat().into_iter().enumerate() {
            let mut book = Book::random(&mut random, suite);
            book.kind = Kind::ALL[i / 8];
            for _ in 0..3 {
                let (s, t) = (1 + random.below(30), random.below(30));
                book.units.push(Unit {
                    from: *b"en",
                    to: *b"ga",
                    source: random.some_bytes(s),
                    target: random.some_bytes(t),
                });
            }
            let (bytes, calls) = book.laid_out();
            assert_eq!(check(&book.key, &bytes), Ok((3, calls as u64)));
            for _ in 0..200 {
                let mut bytes = bytes.clone();
                for _ in 0..random.below(3) {
                    let at = random.below(bytes.len());
                    bytes[at] =
                        random.one_of(&[0, 1, 0x10, 0x12, 0x14, 0x20, 0x21, bytes[at], 0xFF]);
                }
                let answer = check(&book.key, &bytes);
                let laid_out = Book::taken_apart(&book.key, &bytes).map(|book| {
                    let (_, calls) = book.laid_out();
                    (book.units.len() as u64, calls as u64)
                });
                assert_eq!(answer.ok(), laid_out, "suite {suite:?}");
                accepted += usize::from(answer.is_ok());
            }
        }
        assert!((1_100..2_100).contains(&accepted), "{accepted}");
    }
}
