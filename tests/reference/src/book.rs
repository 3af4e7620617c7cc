//! A whole book, laid out from its units, and taken apart into them again.
//!
//! Quoted sentences are the scope's, or a request's.

use crate::cipher::listed;
use crate::random::Random;
use crate::sealing::{seal, unsealed};
use crate::state::Block;

/// How many units a writer may add and a reader meets before refusal 13: "at most 16,777,215 units".
pub const MOST_UNITS: usize = 16_777_215;

/// The kinds of book, each named by the tag of its unit headers.
#[derive(Clone, Copy, Debug, PartialEq, Eq)]
pub enum Kind {
    /// The scope's, with numbers of two bytes: "10 (6 bytes: unit number, source and target language, two
    /// bytes each)", "Close: 20 (2 bytes, unit count)", "at most 65,535".
    Tag10,
    /// "Unit header and close get 4-byte numbers, under tags 14 and 21 (hexadecimal); at most 16,777,215
    /// units."
    Tag14,
}

impl Kind {
    pub const ALL: [Kind; 2] = [Kind::Tag10, Kind::Tag14];

    /// "The writer makes only the wide kind."
    pub const NEWEST: Kind = Kind::Tag14;

    /// The kind that the byte behind the opening fields says: the tag of a unit's header, or of the close in
    /// a book without units.
    pub fn of(book: &[u8]) -> Option<Kind> {
        let tag = *book.get(16)?;
        let says = |kind: &Kind| [kind.header_tag(), kind.close_tag()].contains(&tag);
        Kind::ALL.into_iter().find(says)
    }

    /// The kind that what stands at any place of a book is read as: the one that it says, or where it says none the
    /// newest. From the first unit on such a book is refused with 14 as any kind; of other places, at which only
    /// calls look that the scope does not have, this is ours.
    pub fn read_as(book: &[u8]) -> Kind {
        Kind::of(book).unwrap_or(Kind::NEWEST)
    }

    /// The tag of a unit's header.
    pub fn header_tag(self) -> u8 {
        match self {
            Kind::Tag10 => 0x10,
            Kind::Tag14 => 0x14,
        }
    }

    /// The tag of the close's first field.
    pub fn close_tag(self) -> u8 {
        match self {
            Kind::Tag10 => 0x20,
            Kind::Tag14 => 0x21,
        }
    }

    /// How many bytes a unit's number takes in its header, and the count in the close.
    pub fn number_bytes(self) -> usize {
        match self {
            Kind::Tag10 => 2,
            Kind::Tag14 => 4,
        }
    }

    /// How many units the writer of this kind may add.
    pub fn most_units(self) -> usize {
        match self {
            Kind::Tag10 => 65_535,
            Kind::Tag14 => MOST_UNITS,
        }
    }

    /// How many bytes a unit takes: "33 + s + t", and two more where its number has two more.
    pub fn unit_len(self, s: usize, t: usize) -> usize {
        31 + self.number_bytes() + s + t
    }

    /// How many bytes the close takes: 24, and two more where the count has two more.
    pub fn close_len(self) -> usize {
        22 + self.number_bytes()
    }

    /// Where a unit's ciphertext begins: behind the header, and tag and length of field 11.
    pub fn ciphertext_at(self) -> usize {
        10 + self.number_bytes()
    }

    /// A number in the bytes that it has in this kind: "All numbers in values and texts are big-endian too."
    fn number(self, number: usize) -> Vec<u8> {
        let bytes = number.to_be_bytes();
        let (zeros, bytes) = bytes.split_at(bytes.len() - self.number_bytes());
        assert!(zeros.iter().all(|byte| *byte == 0), "{number}");
        bytes.to_vec()
    }
}

/// "The trade allows equal codes, so 11's cause is now exactly a byte that is no letter a to z."
pub fn languages_allowed(from: [u8; 2], to: [u8; 2]) -> bool {
    let no_letter = |byte: &u8| !(b'a'..=b'z').contains(byte);
    ![from, to].concat().iter().any(no_letter)
}

/// "s is 1 to 4,096, t 0 to 4,096"
pub fn lengths_allowed(s: usize, t: usize) -> bool {
    (1..=4_096).contains(&s) && t <= 4_096
}

/// Where each unit begins, and then the close: "A book takes 16 + the sum of (33 + s + t) + 24 bytes", in
/// the scope's kind.
pub fn places(book: &Book) -> Vec<usize> {
    let mut places = vec![16];
    for unit in &book.units {
        places.push(places[places.len() - 1] + unit.len(book.kind));
    }
    places
}

/// A unit: two language codes, and a segment in each language.
#[derive(Clone, Debug, PartialEq, Eq)]
pub struct Unit {
    pub from: [u8; 2],
    pub to: [u8; 2],
    pub source: Vec<u8>,
    pub target: Vec<u8>,
}

impl Unit {
    /// "The text is a two-byte source length s, source, target"
    pub fn text(&self) -> Vec<u8> {
        let s = two_bytes(self.source.len());
        [&s[..], &self.source, &self.target].concat()
    }

    /// How many bytes the unit takes in a book of this kind.
    pub fn len(&self, kind: Kind) -> usize {
        kind.unit_len(self.source.len(), self.target.len())
    }

    /// Whether a book may have this unit.
    fn allowed(&self) -> bool {
        languages_allowed(self.from, self.to)
            && lengths_allowed(self.source.len(), self.target.len())
    }
}

/// What a book says, and what it is sealed under.
#[derive(Clone, Debug, PartialEq, Eq)]
pub struct Book {
    pub kind: Kind,
    pub cipher: u8,
    pub steps: u8,
    pub key: Block,
    pub number: u64,
    pub units: Vec<Unit>,
}

impl Book {
    /// A book of the kind that the writer makes, with no units yet, with a random key and number.
    pub fn random(random: &mut Random, (cipher, steps): (u8, u8)) -> Book {
        Book {
            kind: Kind::NEWEST,
            cipher,
            steps,
            key: random.bytes(),
            number: random.number(),
            units: Vec::new(),
        }
    }

    /// Known value 8: book 7, Scream with 10 steps, one unit from en to de with s 5 and t 6.
    pub fn known(kind: Kind, key: [u8; 16]) -> Book {
        Book {
            kind,
            cipher: 1,
            steps: 10,
            key,
            number: 7,
            units: vec![Unit {
                from: *b"en",
                to: *b"de",
                source: b"valve".to_vec(),
                target: b"Ventil".to_vec(),
            }],
        }
    }

    /// The book's bytes, and how many calls of the cipher they take. The suite is listed, the units are such
    /// as a book may have, and no more than its kind has room for.
    pub fn laid_out(&self) -> (Vec<u8>, usize) {
        let mut book = self.opening();
        let mut calls = 0;
        for (i, unit) in self.units.iter().enumerate() {
            let (bytes, count) = self.unit(self.kind, i, unit);
            book.extend(bytes);
            calls += count;
        }
        let (bytes, count) = self.close(self.kind, self.units.len());
        book.extend(bytes);
        (book, calls + count)
    }

    /// A unit of a kind under this book's opening fields, as the unit of this number, and its calls.
    pub fn unit(&self, kind: Kind, number: usize, unit: &Unit) -> (Vec<u8>, usize) {
        let value = [&kind.number(number)[..], &unit.from, &unit.to].concat();
        let head = field(kind.header_tag(), &value);
        let (ciphertext, tag, calls) = self.sealed(number, &head, &unit.text());
        let fields = [head, field(0x11, &ciphertext), field(0x12, &tag)];
        (fields.concat(), calls)
    }

    /// A close of a kind with this count, and its calls: "Close: 20 (2 bytes, unit count), 12; its text is
    /// empty."
    pub fn close(&self, kind: Kind, count: usize) -> (Vec<u8>, usize) {
        let head = field(kind.close_tag(), &kind.number(count));
        let (_, tag, calls) = self.sealed(count, &head, &[]);
        ([head, field(0x12, &tag)].concat(), calls)
    }

    /// The book that is laid out as these bytes under this key, where there is one.
    pub fn taken_apart(key: &Block, bytes: &[u8]) -> Option<Book> {
        let book = Book::read(key, bytes)?;
        let allowed = book.units.iter().all(Unit::allowed);
        (allowed && book.laid_out().0 == bytes).then_some(book)
    }

    /// The only book that these bytes may be the layout of. What the units are, tags, unit numbers and
    /// the count are not looked at.
    fn read(key: &Block, bytes: &[u8]) -> Option<Book> {
        let fields = fields(bytes)?;
        let [(0x01, number), (0x02, &[cipher, steps]), between @ .., (close, _), (0x12, _)] =
            &fields[..]
        else {
            return None;
        };
        let kind = Kind::ALL
            .into_iter()
            .find(|kind| kind.close_tag() == *close)?;
        let mut book = Book {
            kind,
            cipher,
            steps,
            key: *key,
            number: u64::from_be_bytes((*number).try_into().ok()?),
            units: Vec::new(),
        };
        if !listed(cipher, steps) || between.len() > 3 * kind.most_units() {
            return None;
        }
        for (i, three) in between.chunks(3).enumerate() {
            let [(tag, head), (0x11, ciphertext), (0x12, _)] = three else {
                return None;
            };
            if *tag != kind.header_tag() {
                return None;
            }
            let (_, languages) = head.split_at_checked(kind.number_bytes())?;
            let &[f0, f1, t0, t1] = languages else {
                return None;
            };
            let text = unsealed(cipher, steps, key, &book.nonce(i), ciphertext);
            let (s, segments) = text.split_at_checked(2)?;
            let s = 256 * s[0] as usize + s[1] as usize;
            let (source, target) = segments.split_at_checked(s)?;
            book.units.push(Unit {
                from: [f0, f1],
                to: [t0, t1],
                source: source.to_vec(),
                target: target.to_vec(),
            });
        }
        Some(book)
    }

    /// "01 (8 bytes, book number), 02 (suite)"
    pub fn opening(&self) -> Vec<u8> {
        let number = field(0x01, &self.number.to_be_bytes());
        [number, field(0x02, &[self.cipher, self.steps])].concat()
    }

    /// "The nonce is the book number and the unit number in 4 bytes (the count, at the close)."
    fn nonce(&self, i: usize) -> Vec<u8> {
        let i = u32::try_from(i).expect("a number of at most 4 bytes");
        [&self.number.to_be_bytes()[..], &i.to_be_bytes()].concat()
    }

    /// Ciphertext, tag and number of calls of a unit's text or the close's.
    /// "The header sealed along is fields 01, 02 and 10 (25 bytes) or 20 (21 bytes)"; with 14 it has 27, with
    /// 21 it has 23.
    fn sealed(&self, i: usize, head: &[u8], text: &[u8]) -> (Vec<u8>, Vec<u8>, usize) {
        let header = [&self.opening(), head].concat();
        let (nonce, len) = (self.nonce(i), text.len());
        let sealed = seal(
            self.cipher,
            self.steps,
            &self.key,
            &nonce,
            &header,
            text,
            len + 16,
        );
        let (mut ciphertext, calls) = sealed.expect("a listed suite, and within the limits");
        let tag = ciphertext.split_off(len);
        (ciphertext, tag, calls)
    }
}

/// "A field is a one-byte tag, a two-byte big-endian length, a value."
pub fn field(tag: u8, value: &[u8]) -> Vec<u8> {
    [&[tag][..], &two_bytes(value.len()), value].concat()
}

/// A length.
fn two_bytes(number: usize) -> [u8; 2] {
    assert!(number < 65_536);
    [(number / 256) as u8, (number % 256) as u8]
}

/// Tag and value of each field that these bytes are made of, where they are made of fields.
fn fields(mut bytes: &[u8]) -> Option<Vec<(u8, &[u8])>> {
    let mut fields = Vec::new();
    while let [tag, high, low, rest @ ..] = bytes {
        let (value, after) = rest.split_at_checked(256 * *high as usize + *low as usize)?;
        fields.push((*tag, value));
        bytes = after;
    }
    bytes.is_empty().then_some(fields)
}

#[cfg(test)]
mod tests {
    use super::*;
    use crate::cipher::SUITES;

    /// Known value 8 as printed, and every field's tag and length at its place.
    #[test]
    fn known_book() {
        let book = Book::known(Kind::Tag10, [9; 16]);
        let (bytes, calls) = book.laid_out();
        assert_eq!((bytes.len(), calls), (84, 7));
        let opening = [1, 0, 8, 0, 0, 0, 0, 0, 0, 0, 7, 2, 0, 2, 1, 10];
        let head = [0x10, 0, 6, 0, 0, 0x65, 0x6E, 0x64, 0x65];
        assert_eq!(bytes[..16], opening);
        assert_eq!(bytes[16..25], head);
        assert_eq!(bytes[25..28], [0x11, 0, 13]);
        assert_eq!(bytes[41..44], [0x12, 0, 16]);
        assert_eq!(bytes[60..65], [0x20, 0, 2, 0, 1]);
        assert_eq!(bytes[65..68], [0x12, 0, 16]);

        // each sealing again, with its nonce and its header in full
        let header = [&opening[..], &head].concat();
        let (sealed, calls) = sealed_again(0, &header, b"\x00\x05valveVentil");
        assert_eq!((header.len(), calls), (25, 4));
        assert_eq!([&bytes[28..41], &bytes[44..60]].concat(), sealed);
        let header = [&opening[..], &[0x20, 0, 2, 0, 1]].concat();
        let (sealed, calls) = sealed_again(1, &header, &[]);
        assert_eq!((header.len(), calls), (21, 3));
        assert_eq!(bytes[68..], sealed);
    }

    /// Known value 8 as the writer makes it: "88 bytes, 7 calls".
    #[test]
    fn known_wide_book() {
        let book = Book::known(Kind::Tag14, [9; 16]);
        let (bytes, calls) = book.laid_out();
        assert_eq!((bytes.len(), calls), (88, 7));
        let opening = [1, 0, 8, 0, 0, 0, 0, 0, 0, 0, 7, 2, 0, 2, 1, 10];
        let head = [0x14, 0, 8, 0, 0, 0, 0, 0x65, 0x6E, 0x64, 0x65];
        assert_eq!(bytes[..16], opening);
        assert_eq!(bytes[16..27], head);
        assert_eq!(bytes[27..30], [0x11, 0, 13]);
        assert_eq!(bytes[43..46], [0x12, 0, 16]);
        assert_eq!(bytes[62..69], [0x21, 0, 4, 0, 0, 0, 1]);
        assert_eq!(bytes[69..72], [0x12, 0, 16]);

        let header = [&opening[..], &head].concat();
        let (sealed, calls) = sealed_again(0, &header, b"\x00\x05valveVentil");
        assert_eq!((header.len(), calls), (27, 4));
        assert_eq!([&bytes[30..43], &bytes[46..62]].concat(), sealed);
        let header = [&opening[..], &[0x21, 0, 4, 0, 0, 0, 1]].concat();
        let (sealed, calls) = sealed_again(1, &header, &[]);
        assert_eq!((header.len(), calls), (23, 3));
        assert_eq!(bytes[72..], sealed);
    }

    /// A text of a known book, under the key of nines, as unit or close of this number.
    fn sealed_again(number: u8, header: &[u8], text: &[u8]) -> (Vec<u8>, usize) {
        let nonce = [0, 0, 0, 0, 0, 0, 0, 7, 0, 0, 0, number];
        seal(1, 10, &[9; 16], &nonce, header, text, text.len() + 16).unwrap()
    }

    /// "11's cause is now exactly a byte that is no letter a to z": every byte at every place, beside letters, and
    /// at the same place of both codes.
    #[test]
    fn languages() {
        let mut allowed = 0;
        for byte in 0..=255 {
            let letter = matches!(byte, 0x61..=0x7A);
            for (from, to) in [
                ([byte, b'n'], *b"de"),
                ([b'e', byte], *b"de"),
                (*b"en", [byte, b'e']),
                (*b"en", [b'd', byte]),
                ([byte, b'n'], [byte, b'n']),
                ([b'e', byte], [b'e', byte]),
                ([byte; 2], [byte; 2]),
            ] {
                let answer = languages_allowed(from, to);
                assert_eq!(answer, letter, "{from:?}, {to:?}");
                allowed += usize::from(answer);
            }
        }
        assert_eq!(allowed, 7 * 26);
    }

    /// "Books with a pair like en, en, under either header tag, join those that checking accepts": they are laid
    /// out as all others, with the codes in the header that is sealed along, and taken apart again.
    #[test]
    fn equal_codes() {
        for (kind, head) in [
            (Kind::Tag10, &b"\x10\0\x06\0\0enen"[..]),
            (Kind::Tag14, b"\x14\0\x08\0\0\0\0enen"),
        ] {
            let mut book = Book::known(kind, [9; 16]);
            book.units[0].to = *b"en";
            let (bytes, calls) = book.laid_out();
            let places = places(&book);
            let len = places[1] + kind.close_len();
            assert_eq!((bytes.len(), calls), (len, 7));
            assert_eq!(bytes[16..16 + head.len()], *head);
            let header = [&bytes[..16], head].concat();
            let (sealed, _) = sealed_again(0, &header, b"\x00\x05valveVentil");
            let part = 16 + kind.ciphertext_at();
            let tag = places[1] - 16..places[1];
            assert_eq!([&bytes[part..part + 13], &bytes[tag]].concat(), sealed);
            let again = Book::taken_apart(&book.key, &bytes);
            assert_eq!(again, Some(book));
        }
    }

    /// What a kind says, in figures.
    #[test]
    fn kinds() {
        let figures = |kind: Kind| {
            let tags = (kind.header_tag(), kind.close_tag());
            let lens = (kind.unit_len(5, 6), kind.close_len(), kind.ciphertext_at());
            (tags, kind.number_bytes(), kind.most_units(), lens)
        };
        let old = ((0x10, 0x20), 2, 65_535, (33 + 11, 24, 12));
        assert_eq!(figures(Kind::Tag10), old);
        let wide = ((0x14, 0x21), 4, 16_777_215, (35 + 11, 26, 14));
        assert_eq!(figures(Kind::Tag14), wide);
        for tag in 0..=255 {
            let mut book = [0x10; 18];
            book[16] = tag;
            let expected = match tag {
                0x10 | 0x20 => Some(Kind::Tag10),
                0x14 | 0x21 => Some(Kind::Tag14),
                _ => None,
            };
            assert_eq!(Kind::of(&book), expected, "{tag:02X}");
            assert_eq!(Kind::of(&book[..17]), expected, "{tag:02X}");
            assert_eq!(Kind::of(&book[..16]), None, "{tag:02X}");
            let read_as = expected.unwrap_or(Kind::Tag14);
            assert_eq!(Kind::read_as(&book), read_as, "{tag:02X}");
        }
    }

    /// "A book takes 16 + the sum of (33 + s + t) + 24 bytes"; a wide one 35 a unit, and 26. Taken apart it is
    /// the same again.
    #[test]
    fn there_and_back() {
        let mut random = Random::new(16 + 33 + 24);
        for (kind, unit, close) in [(Kind::Tag10, 33, 24), (Kind::Tag14, 35, 26)] {
            for (i, suite) in SUITES.into_iter().enumerate() {
                let mut book = Book::random(&mut random, suite);
                assert_eq!(book.kind, Kind::Tag14);
                book.kind = kind;
                let mut len = 16 + close;
                for (s, t) in [(1, 0), (4_096, 4_096), (13, 1), (300, 0), (14, 16)] {
                    let (bytes, calls) = book.laid_out();
                    assert_eq!(bytes.len(), len);
                    assert_eq!(places(&book).last(), Some(&(len - close)));
                    let texts = book.units.iter().map(|unit| unit.text().len().div_ceil(16));
                    assert_eq!(calls, texts.map(|blocks| blocks + 3).sum::<usize>() + 3);
                    let again = Book::taken_apart(&book.key, &bytes);
                    assert_eq!(again.as_ref(), Some(&book), "suite {i}");
                    book.units.push(Unit {
                        from: *b"fr",
                        to: *b"it",
                        source: random.some_bytes(s),
                        target: random.some_bytes(t),
                    });
                    len += unit + s + t;
                }
            }
        }
    }

    /// Units and closes of two kinds in one book, each sealed with its own header: no book is laid out so.
    #[test]
    fn mixed_kinds() {
        let book = Book::known(Kind::NEWEST, [9; 16]);
        for (first, second, close) in kinds_of_three() {
            let unit = &book.units[0];
            let bytes = [
                book.opening(),
                book.unit(first, 0, unit).0,
                book.unit(second, 1, unit).0,
                book.close(close, 2).0,
            ];
            let apart = Book::taken_apart(&book.key, &bytes.concat());
            let one_kind = first == second && second == close;
            assert_eq!(
                apart.is_some(),
                one_kind,
                "{first:?}, {second:?}, {close:?}"
            );
        }
    }

    fn kinds_of_three() -> Vec<(Kind, Kind, Kind)> {
        let pairs = Kind::ALL.map(|one| Kind::ALL.map(|two| (one, two)));
        let threes =
            Kind::ALL.map(|close| pairs.concat().into_iter().map(move |(a, b)| (a, b, close)));
        threes.into_iter().flatten().collect()
    }
}
