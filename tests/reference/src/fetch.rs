//! Fetching one unit of a book, or its ciphertext.
//!
//! Quoted sentences are the scope's. Refusals are given by their numbers. The frames, that is units and
//! close as they stand in a book, are read here apart from `check`, so that the two can be held against
//! each other.

use std::ops::Range;

use crate::book::{languages_allowed, lengths_allowed, Kind, MOST_UNITS};
use crate::check::{field, number_of};
use crate::cipher::listed;
use crate::sealing::open;

/// What is fetched: a unit's source and target, of s and t bytes.
#[derive(Clone, Debug, PartialEq, Eq)]
pub struct Fetched {
    pub source: Vec<u8>,
    pub target: Vec<u8>,
}

impl Fetched {
    /// "writes source and target to the output"
    pub fn written(&self) -> Vec<u8> {
        [&self.source[..], &self.target].concat()
    }
}

/// "Fetch k walks units 0 to k−1 without their seals, opens unit k, writes source and target to the
/// output, returns s and t." Or the first refusal. `out_len` is the length of the output.
pub fn fetch(key: &[u8], book: &[u8], k: u64, out_len: usize) -> Result<Fetched, u32> {
    if key.len() != 16 {
        return Err(2);
    }
    let opening = Opening::of(book)?;
    let (number, frame) = walk(book, k)?;
    opening.fetched(key, number, &frame, out_len)
}

/// The same without the walk, which the scope does not have: what stands at byte `at` of the book, as
/// unit `number`, and where the next unit begins, or the close. Past the book's end there are no bytes.
pub fn fetch_at(
    key: &[u8],
    book: &[u8],
    number: u64,
    at: usize,
    out_len: usize,
) -> Result<(Fetched, usize), u32> {
    if key.len() != 16 {
        return Err(2);
    }
    let opening = Opening::of(book)?;
    let frame = Frame::at(book, at, number)?;
    let fetched = opening.fetched(key, number, &frame, out_len)?;
    Ok((fetched, frame.end))
}

/// "Given k, a second call hands back unit k's ciphertext as a part of the book buffer itself, unopened,
/// or, with no number, an empty part where the opening fields, the walk, or the framing, number or
/// languages of k, would be refused or there is no unit k." Where that part stands in the book; an
/// empty one stands at 0.
pub fn ciphertext(book: &[u8], k: u64) -> Range<usize> {
    let walked = Opening::of(book).and_then(|_| walk(book, k));
    match walked {
        Ok((_, frame)) if frame.is_unit => frame.ciphertext,
        _ => 0..0,
    }
}

/// A book that begins with fields 01 and 02, and what these say.
pub(crate) struct Opening<'a> {
    book: &'a [u8],
    pub(crate) number: &'a [u8],
    pub(crate) cipher: u8,
    pub(crate) steps: u8,
}

impl Opening<'_> {
    /// "14 of 01 and 02; 1"
    pub(crate) fn of(book: &[u8]) -> Result<Opening<'_>, u32> {
        let mut place = 0;
        let number = field(book, &mut place, 0x01, 8..=8)?;
        let suite = field(book, &mut place, 0x02, 2..=2)?;
        let (cipher, steps) = (suite[0], suite[1]);
        if !listed(cipher, steps) {
            return Err(1);
        }
        Ok(Opening {
            book,
            number,
            cipher,
            steps,
        })
    }

    /// What fetching says where its walk has ended at this frame.
    fn fetched(
        &self,
        key: &[u8],
        number: u64,
        frame: &Frame,
        out_len: usize,
    ) -> Result<Fetched, u32> {
        // "The nonce is the book number and the unit number in 4 bytes (the count, at the close)."
        let number = u32::try_from(number).expect("a frame of this number has been read");
        let nonce = [self.number, &number.to_be_bytes()].concat();
        // "fields 01, 02 and 10 (25 bytes) or 20 (21 bytes)"; 14 or 21 in a wide book
        let header = [&self.book[..16], frame.head].concat();
        let ciphertext = &self.book[frame.ciphertext.clone()];
        let sealed = [ciphertext, frame.tag].concat();
        let m = ciphertext.len();
        let text = open(self.cipher, self.steps, key, &nonce, &header, &sealed, m)?;
        if !frame.is_unit {
            // "Meeting the close it verifies it and the end of the book, then says 16."
            let left_over = frame.end < self.book.len();
            return Err(if left_over { 14 } else { 16 });
        }
        // "8, 12", "then 7"
        let (s, segments) = text.split_at(2);
        let (source, target) = segments
            .split_at_checked(number_of(s))
            .filter(|(source, target)| lengths_allowed(source.len(), target.len()))
            .ok_or(12u32)?;
        if out_len < segments.len() {
            return Err(7);
        }
        Ok(Fetched {
            source: source.to_vec(),
            target: target.to_vec(),
        })
    }
}

/// A unit or a close, as it stands in a book.
pub(crate) struct Frame<'a> {
    pub(crate) is_unit: bool,
    /// The unit's header, or the close's first field.
    pub(crate) head: &'a [u8],
    /// Where the value of field 11 stands; a close has none.
    pub(crate) ciphertext: Range<usize>,
    /// The value of field 12.
    tag: &'a [u8],
    /// Where the frame ends.
    pub(crate) end: usize,
}

impl Frame<'_> {
    /// The frame at a place, where so many units stand before it. A place past the end is as the end. Its
    /// kind is the book's: "Checker, fetcher and page read both, one kind per book".
    pub(crate) fn at(book: &[u8], start: usize, number: u64) -> Result<Frame<'_>, u32> {
        let start = start.min(book.len());
        let kind = Kind::read_as(book);
        match book.get(start) {
            Some(tag) if *tag == kind.close_tag() => Frame::close_at(kind, book, start, number),
            _ => Frame::unit_at(kind, book, start, number),
        }
    }

    /// "each unit: 14 of its header, 13, 15, 11, 14 of the rest"
    fn unit_at(kind: Kind, book: &[u8], start: usize, number: u64) -> Result<Frame<'_>, u32> {
        let mut place = start;
        let (tag, len) = match kind {
            Kind::Tag10 => (0x10, 6),
            Kind::Tag14 => (0x14, 8),
        };
        let value = field(book, &mut place, tag, len..=len)?;
        let head = &book[start..place];
        if number >= MOST_UNITS as u64 {
            return Err(13);
        }
        let [digits @ .., f0, f1, t0, t1] = value else {
            panic!("{len} bytes");
        };
        if number_of(digits) as u64 != number {
            return Err(15);
        }
        if !languages_allowed([*f0, *f1], [*t0, *t1]) {
            return Err(11);
        }
        let m = field(book, &mut place, 0x11, 3..=8_194)?.len();
        let ciphertext = place - m..place;
        let tag = field(book, &mut place, 0x12, 16..=16)?;
        Ok(Frame {
            is_unit: true,
            head,
            ciphertext,
            tag,
            end: place,
        })
    }

    /// "close: 14 of both its fields, 15"
    fn close_at(kind: Kind, book: &[u8], start: usize, number: u64) -> Result<Frame<'_>, u32> {
        let mut place = start;
        let (tag, len) = match kind {
            Kind::Tag10 => (0x20, 2),
            Kind::Tag14 => (0x21, 4),
        };
        let count = field(book, &mut place, tag, len..=len)?;
        let head = &book[start..place];
        let tag = field(book, &mut place, 0x12, 16..=16)?;
        if number_of(count) as u64 != number {
            return Err(15);
        }
        Ok(Frame {
            is_unit: false,
            head,
            ciphertext: 0..0,
            tag,
            end: place,
        })
    }
}

/// The frame at which the walk to unit k ends, and how many units stand before it: that of unit k, or
/// the close. Or the refusal of a frame on the way.
fn walk(book: &[u8], k: u64) -> Result<(u64, Frame<'_>), u32> {
    let (mut number, mut place) = (0, 16);
    loop {
        let frame = Frame::at(book, place, number)?;
        if number == k || !frame.is_unit {
            return Ok((number, frame));
        }
        number += 1;
        place = frame.end;
    }
}

#[cfg(test)]
mod tests {
    use super::*;
    use crate::book::{self, Book, Unit};
    use crate::check::check;
    use crate::cipher::SUITES;
    use crate::random::Random;
    use crate::sealing::seal;

    const KEY: [u8; 16] = [9; 16];

    /// An output in which every unit has room.
    const ROOM: usize = 8_192;

    /// Known value 8's book: 84 bytes as printed, with fields at 0, 11, 16, 25, 41, 60 and 65; 88 bytes as the
    /// writer makes it, with fields at 0, 11, 16, 27, 43, 62 and 69.
    fn known(kind: Kind) -> Vec<u8> {
        Book::known(kind, KEY).laid_out().0
    }

    /// The known book with these bytes from a place on.
    fn with(kind: Kind, at: usize, bytes: &[u8]) -> Vec<u8> {
        let mut book = known(kind);
        book[at..at + bytes.len()].copy_from_slice(bytes);
        book
    }

    /// Where the ciphertext of the known book stands, and its close.
    fn places_of(kind: Kind) -> (Range<usize>, usize) {
        match kind {
            Kind::Tag10 => (28..41, 60),
            Kind::Tag14 => (30..43, 62),
        }
    }

    /// The unit as it is fetched.
    fn of(unit: &Unit) -> Fetched {
        Fetched {
            source: unit.source.clone(),
            target: unit.target.clone(),
        }
    }

    fn some_unit(random: &mut Random, s: usize, t: usize) -> Unit {
        Unit {
            from: *b"en",
            to: *b"ga",
            source: random.some_bytes(s),
            target: random.some_bytes(t),
        }
    }

    #[test]
    fn known_book() {
        let unit = Fetched {
            source: b"valve".to_vec(),
            target: b"Ventil".to_vec(),
        };
        for kind in Kind::ALL {
            let known = known(kind);
            let (part, close) = places_of(kind);
            assert_eq!(fetch(&KEY, &known, 0, 11), Ok(unit.clone()));
            assert_eq!(fetch(&KEY, &known, 0, 10), Err(7));
            let answer = fetch_at(&KEY, &known, 0, 16, 11);
            assert_eq!(answer, Ok((unit.clone(), close)));
            assert_eq!(fetch_at(&KEY, &known, 1, close, 0), Err(16));
            for k in [1, 2, 1 << 16, 1 << 24, 1 << 32, u64::MAX] {
                assert_eq!(fetch(&KEY, &known, k, 0), Err(16), "{k}");
                assert_eq!(ciphertext(&known, k), 0..0, "{k}");
            }
            assert_eq!(ciphertext(&known, 0), part);
        }
    }

    /// Fetching unit 0, and walking past it: 0 where the change is not seen, and whether the ciphertext
    /// part is there. In an old book and a wide one.
    #[test]
    fn each_refusal() {
        for (old, wide, bytes, fetched, walked, part) in [
            (0, 0, &[2][..], 14, 14, false),
            (2, 2, &[7], 14, 14, false),
            (11, 11, &[1], 14, 14, false),
            (13, 13, &[3], 14, 14, false),
            (14, 14, &[3], 1, 1, false),
            (15, 15, &[11], 1, 1, false),
            (10, 10, &[8], 8, 8, true),
            (15, 15, &[8], 8, 8, true),
            (16, 16, &[0x11], 14, 14, false),
            (16, 16, &[0x15], 14, 14, false),
            (16, 16, &[0x20], 14, 14, false),
            (16, 16, &[0x21], 14, 14, false),
            (18, 18, &[5], 14, 14, false),
            (18, 18, &[7], 14, 14, false),
            (19, 19, &[1], 15, 15, false),
            (20, 20, &[1], 15, 15, false),
            (20, 21, &[1], 15, 15, false),
            (20, 22, &[1], 15, 15, false),
            (21, 23, b"deen", 8, 16, true),
            (21, 23, b"eNde", 11, 11, false),
            (21, 23, b"dede", 8, 16, true),
            (21, 23, b"enen", 8, 16, true),
            (21, 23, b"eNeN", 11, 11, false),
            (21, 23, b"\0\0\0\0", 11, 11, false),
            (25, 27, &[0x12], 14, 14, false),
            (26, 28, &[0, 2], 14, 14, false),
            (26, 28, &[0x20, 3], 14, 14, false),
            (27, 29, &[12], 14, 14, false),
            (28, 30, &[0; 13], 8, 16, true),
            (41, 43, &[0x11], 14, 14, false),
            (43, 45, &[15], 14, 14, false),
            (44, 46, &[0; 16], 8, 16, true),
            (60, 62, &[0x22], 0, 14, true),
            (62, 64, &[3], 0, 14, true),
            (63, 65, &[1], 0, 15, true),
            (63, 66, &[1], 0, 15, true),
            (63, 67, &[1], 0, 15, true),
            (64, 68, &[0], 0, 15, true),
            (65, 69, &[0x11], 0, 14, true),
            (67, 71, &[15], 0, 14, true),
            (68, 72, &[0; 16], 0, 8, true),
        ] {
            for (kind, at) in [(Kind::Tag10, old), (Kind::Tag14, wide)] {
                let book = with(kind, at, bytes);
                let answer = fetch(&KEY, &book, 0, ROOM);
                let name = format!("{kind:?}, {bytes:?} at {at}");
                assert_eq!(answer.err().unwrap_or(0), fetched, "{name}");
                for k in [1, 2, u64::MAX] {
                    let answer = fetch(&KEY, &book, k, 0);
                    assert_eq!(answer, Err(walked), "{name}");
                }
                let expected = if part { places_of(kind).0 } else { 0..0 };
                assert_eq!(ciphertext(&book, 0), expected, "{name}");
                assert_eq!(ciphertext(&book, 1), 0..0, "{name}");
            }
        }
        for kind in Kind::ALL {
            let known = known(kind);
            let (_, close) = places_of(kind);
            for len in 0..known.len() {
                let start = &known[..len];
                let answer = fetch(&KEY, start, 0, ROOM);
                assert_eq!(answer.is_ok(), len >= close, "{len} bytes");
                assert_eq!(answer.err().unwrap_or(14), 14, "{len} bytes");
                assert_eq!(fetch(&KEY, start, 1, 0), Err(14), "{len} bytes");
                assert_eq!(ciphertext(start, 0).is_empty(), len < close, "{len} bytes");
            }
            let more = [&known[..], &[0]].concat();
            assert!(fetch(&KEY, &more, 0, ROOM).is_ok());
            assert_eq!(fetch(&KEY, &more, 1, ROOM), Err(14));
            assert_eq!(fetch(&KEY[1..], &known, 0, ROOM), Err(2));
        }
        assert_eq!(fetch(&[1; 17], &[], 0, 0), Err(2));
    }

    /// A unit of either kind whose codes are the same, between two others: fetched, walked past, and its
    /// ciphertext handed back; with a byte that is no letter in both codes it is refused with 11.
    #[test]
    fn equal_codes() {
        let mut random = Random::new(21);
        for kind in Kind::ALL {
            for (code, allowed) in [
                (b"en", true),
                (b"aa", true),
                (b"eN", false),
                (b"e\0", false),
            ] {
                let mut book = Book::random(&mut random, (2, 8));
                book.kind = kind;
                book.units = (0..3).map(|_| some_unit(&mut random, 5, 6)).collect();
                (book.units[1].from, book.units[1].to) = (*code, *code);
                let (bytes, _) = book.laid_out();
                let at = book::places(&book)[1];
                let name = format!("{kind:?}, {code:?}");
                let expected = |k: usize| match allowed || k == 0 {
                    true => Ok(of(&book.units[k])),
                    false => Err(11),
                };
                for k in 0..3 {
                    let answer = fetch(&book.key, &bytes, k as u64, ROOM);
                    assert_eq!(answer, expected(k), "unit {k}, {name}");
                    let part = ciphertext(&bytes, k as u64);
                    assert_eq!(part.is_empty(), expected(k).is_err(), "unit {k}, {name}");
                }
                let answer = fetch_at(&book.key, &bytes, 1, at, ROOM);
                assert_eq!(answer.map(|(unit, _)| unit), expected(1), "{name}");
                let close = if allowed { 16 } else { 11 };
                assert_eq!(fetch(&book.key, &bytes, 3, ROOM), Err(close), "{name}");
            }
        }
    }

    /// Units of both kinds in one book, and the close of another kind, each sealed with its own header: the
    /// walk ends with 14 at the first tag of another kind, and what stands before it is handed out.
    #[test]
    fn one_kind_per_book() {
        let book = Book::known(Kind::NEWEST, KEY);
        let unit = &book.units[0];
        for (first, second, close) in [0, 1, 2, 3, 4, 5, 6, 7].map(|i: usize| {
            let [first, second, close] = [i / 4, i / 2 % 2, i % 2].map(|kind| Kind::ALL[kind]);
            (first, second, close)
        }) {
            let parts = [
                book.opening(),
                book.unit(first, 0, unit).0,
                book.unit(second, 1, unit).0,
                book.close(close, 2).0,
            ];
            let bytes = parts.concat();
            let name = format!("{first:?}, {second:?}, {close:?}");
            assert_eq!(fetch(&KEY, &bytes, 0, ROOM), Ok(of(unit)), "{name}");
            let expected = if first == second {
                Ok(of(unit))
            } else {
                Err(14)
            };
            assert_eq!(fetch(&KEY, &bytes, 1, ROOM), expected, "{name}");
            let at = 16 + parts[1].len();
            let answer = fetch_at(&KEY, &bytes, 1, at, ROOM);
            let expected = expected.map(|unit| (unit, at + parts[2].len()));
            assert_eq!(answer, expected, "{name}");
            assert_eq!(ciphertext(&bytes, 1).is_empty(), first != second, "{name}");
            let one_kind = first == second && second == close;
            let number = if one_kind { 16 } else { 14 };
            assert_eq!(fetch(&KEY, &bytes, 2, 0), Err(number), "{name}");
            let at = at + parts[2].len();
            let number = if first == close { 16 } else { 14 };
            assert_eq!(fetch_at(&KEY, &bytes, 2, at, 0), Err(number), "{name}");
        }
    }

    /// A text with an s that is out of range, sealed as unit 0's: refused there, and passed over on the
    /// way to unit 1.
    #[test]
    fn lengths_out_of_range() {
        let opening = &known(Kind::Tag14)[..16];
        for (s, after, fetched) in [
            (0, 1, Some(12)),
            (1, 1, None),
            (2, 1, Some(12)),
            (0xFFFF, 11, Some(12)),
            (4_097, 4_097, Some(12)),
            (4_096, 8_192, None),
            (4_095, 8_192, Some(12)),
            (1, 4_098, Some(12)),
        ] {
            let mut text = (s as u16).to_be_bytes().to_vec();
            text.resize(2 + after, 1);
            let header = [opening, b"\x14\0\x08\0\0\0\0ende"].concat();
            let nonce = [0, 0, 0, 0, 0, 0, 0, 7, 0, 0, 0, 0];
            let m = text.len();
            let sealed = seal(1, 10, &KEY, &nonce, &header, &text, m + 16);
            let (sealed, _) = sealed.unwrap();
            let (value, tag) = sealed.split_at(m);
            let fields = [book::field(0x11, value), book::field(0x12, tag)].concat();
            let bytes = [&header, &fields[..]].concat();
            let name = format!("{s} with {after} bytes after it");
            let answer = fetch(&KEY, &bytes, 0, ROOM);
            assert_eq!(answer.err(), fetched, "{name}");
            let answer = fetch(&KEY, &bytes, 0, after - 1);
            assert_eq!(answer.err(), fetched.or(Some(7)), "{name}");
            // there is no close behind it
            assert_eq!(fetch(&KEY, &bytes, 1, ROOM), Err(14), "{name}");
            assert_eq!(ciphertext(&bytes, 0), 30..30 + m, "{name}");
        }
    }

    /// Of what is laid out, fetch k gives unit k, at its place too, and the ciphertext part opens to its
    /// text.
    #[test]
    fn units_of_what_is_laid_out() {
        let mut random = Random::new(16);
        for (i, suite) in [SUITES, SUITES].concat().into_iter().enumerate() {
            let mut book = Book::random(&mut random, suite);
            book.kind = Kind::ALL[i / 8];
            let (ciphertext_at, more) = [(12, 33), (14, 35)][i / 8];
            for (s, t) in [(1, 0), (4_096, 4_096), (13, 1), (300, 0), (14, 16)] {
                book.units.push(some_unit(&mut random, s, t));
            }
            let (bytes, _) = book.laid_out();
            let mut place = 16;
            for (k, unit) in book.units.iter().enumerate() {
                let len = unit.source.len() + unit.target.len();
                let expected = Ok(of(unit));
                let (number, m) = (k as u64, len + 2);
                assert_eq!(fetch(&book.key, &bytes, number, len), expected);
                assert_eq!(fetch(&book.key, &bytes, number, len - 1), Err(7));
                let start = place + ciphertext_at;
                assert_eq!(ciphertext(&bytes, number), start..start + m);
                let at_its_place = fetch_at(&book.key, &bytes, number, place, len);
                place += more + len;
                assert_eq!(at_its_place, expected.map(|unit| (unit, place)));
            }
            assert_eq!(fetch(&book.key, &bytes, 5, 0), Err(16));
            assert_eq!(fetch_at(&book.key, &bytes, 5, place, 0), Err(16));
        }
    }

    /// Where unit n, of any number, is looked for at any place.
    #[test]
    fn places() {
        for kind in Kind::ALL {
            let book = known(kind);
            let (_, close) = places_of(kind);
            for number in [
                0,
                1,
                2,
                65_535,
                65_536,
                16_777_214,
                16_777_215,
                1 << 32,
                u64::MAX,
            ] {
                for at in (0..=90).chain([usize::MAX - 2, usize::MAX]) {
                    let expected = match (at, number) {
                        (16, 0) => None,
                        (16, 16_777_215..) => Some(13),
                        (16, _) => Some(15),
                        (at, 1) if at == close => Some(16),
                        (at, _) if at == close => Some(15),
                        _ => Some(14),
                    };
                    let answer = fetch_at(&KEY, &book, number, at, ROOM);
                    assert_eq!(answer.err(), expected, "unit {number} at {at}");
                }
            }
            let more = [&book[..], &[0]].concat();
            assert_eq!(fetch_at(&KEY, &more, 1, close, 0), Err(14));
            assert_eq!(fetch_at(&KEY, &with(kind, 14, &[3]), 0, 0, 0), Err(1));
        }
        assert_eq!(fetch_at(&KEY[1..], &[], 0, 0, 0), Err(2));
        assert_eq!(fetch_at(&KEY, &[], 0, 0, 0), Err(14));
    }

    /// With each byte behind the opening fields: 14 for a walk, and at the close's place what stands there, read as
    /// the kind that the byte says, or else as the newest.
    #[test]
    fn first_tag() {
        for kind in Kind::ALL {
            let (_, close) = places_of(kind);
            for tag in (0..=255).filter(|tag| *tag != kind.header_tag()) {
                let book = with(kind, 16, &[tag]);
                assert_eq!(fetch(&KEY, &book, 0, ROOM), Err(14), "{tag:02X}");
                assert_eq!(fetch(&KEY, &book, 1, ROOM), Err(14), "{tag:02X}");
                let as_it_is = match kind {
                    Kind::Tag10 => tag == 0x20,
                    Kind::Tag14 => ![0x10, 0x20].contains(&tag),
                };
                let number = if as_it_is { 16 } else { 14 };
                let answer = fetch_at(&KEY, &book, 1, close, 0);
                assert_eq!(answer, Err(number), "{kind:?}, {tag:02X}");
            }
        }
    }

    /// Wide units and closes of large numbers, read at their places: "an old number means the same number
    /// after widening".
    #[test]
    fn large_numbers() {
        let book = Book::known(Kind::NEWEST, KEY);
        let unit = &book.units[0];
        for number in [255, 256, 65_534, 65_535, 65_536, 0x00FE_FDFC, 16_777_214] {
            for kind in Kind::ALL {
                if kind == Kind::Tag10 && number > 65_535 {
                    continue;
                }
                let first = [book.opening(), book.unit(kind, 0, unit).0].concat();
                let at = first.len();
                let bytes = [&first[..], &book.unit(kind, number, unit).0].concat();
                let answer = fetch_at(&KEY, &bytes, number as u64, at, 11);
                assert_eq!(answer, Ok((of(unit), bytes.len())), "{kind:?}, {number}");
                for other in [number + 1, number - 1, number + 65_536, number & 0xFFFF] {
                    let answer = fetch_at(&KEY, &bytes, other as u64, at, 11);
                    let expected = match other {
                        16_777_215.. => Err(13),
                        other if other == number => Ok((of(unit), bytes.len())),
                        _ => Err(15),
                    };
                    assert_eq!(answer, expected, "{kind:?}, {number} as {other}");
                }
                let bytes = [&first[..], &book.close(kind, number).0].concat();
                let answer = fetch_at(&KEY, &bytes, number as u64, at, 11);
                assert_eq!(answer, Err(16), "{kind:?}, {number}");
            }
        }
    }

    /// Checking says what the first refusal of fetching unit 0, unit 1, and so on says, where 16 is the
    /// end of what is accepted; and what is fetched of an accepted book are its units.
    #[test]
    fn one_after_the_other_is_checking() {
        let mut random = Random::new(17);
        let mut counts = [0; 17];
        for (i, suite) in [SUITES, SUITES].concat().into_iter().enumerate() {
            let mut book = Book::random(&mut random, suite);
            book.kind = Kind::ALL[i / 8];
            for _ in 0..3 {
                let (s, t) = (1 + random.below(20), random.below(20));
                book.units.push(some_unit(&mut random, s, t));
            }
            let (bytes, _) = book.laid_out();
            for _ in 0..150 {
                let mut bytes = bytes.clone();
                for _ in 0..random.below(3) {
                    let at = random.below(bytes.len());
                    bytes[at] =
                        random.one_of(&[0, 1, 0x10, 0x12, 0x14, 0x20, 0x21, bytes[at], 0xFF]);
                }
                let mut units = Vec::new();
                let refusal = loop {
                    match fetch(&book.key, &bytes, units.len() as u64, ROOM) {
                        Ok(unit) => units.push(unit),
                        Err(number) => break number,
                    }
                };
                let checked = check(&book.key, &bytes);
                assert_eq!(checked.err().unwrap_or(16), refusal, "suite {suite:?}");
                if let Some(book) = Book::taken_apart(&book.key, &bytes) {
                    let expected: Vec<Fetched> = book.units.iter().map(of).collect();
                    assert_eq!(units, expected, "suite {suite:?}");
                }
                counts[refusal as usize] += 1;
            }
        }
        for number in [1, 8, 11, 14, 15, 16] {
            assert!(counts[number] > 5, "{counts:?}");
        }
    }
}
