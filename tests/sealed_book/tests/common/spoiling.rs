//! Parts of a book that are refused, each for one cause; and damage at random.

use reference::book::{field, Book, Kind};
use reference::random::Random;

use super::parts::{close_fields, number_in, unit_fields};
use super::UNLISTED;

/// Two codes of which one has a byte that is no letter, or each at the same place, in codes that are the same.
pub fn bad_codes(random: &mut Random) -> [u8; 4] {
    let byte = random.one_of(&[0, b' ', b'0', b'A', b'Z', b'`', b'{', 0xE1]);
    let mut codes = *b"ende";
    codes[random.below(4)] = byte;
    match random.below(6) {
        0 => [byte, b'e', byte, b'e'],
        1 => [b'd', byte, b'd', byte],
        _ => codes,
    }
}

/// Two codes of letters, which are the same every third time.
pub fn good_codes(random: &mut Random) -> [u8; 4] {
    random.one_of(&[*b"ende", *b"ende", *b"enen"])
}

/// A text with this s and so many bytes after it.
pub fn text(random: &mut Random, s: usize, after: usize) -> Vec<u8> {
    let s = (s as u16).to_be_bytes();
    [&s[..], &random.some_bytes(after)].concat()
}

/// A text whose s or t is out of range.
pub fn bad_text(random: &mut Random) -> Vec<u8> {
    let after = 1 + random.below(30);
    let (s, after) = random.one_of(&[
        (0, after),
        (after + 1, after),
        (after + 256, after),
        (0xFFFF, after),
        (4_097, 4_097),
        (4_097, 8_192),
        (1, 4_098),
        (4_095, 8_192),
    ]);
    text(random, s, after)
}

/// Spoils one of the fields: another tag, another length, or bytes missing from somewhere in it on.
pub fn spoil(random: &mut Random, fields: &mut Vec<Vec<u8>>, at: usize) {
    let one = &mut fields[at];
    match random.below(4) {
        0 => {
            let tags = [
                0x00, 0x01, 0x02, 0x10, 0x11, 0x12, 0x14, 0x15, 0x20, 0x21, 0xFF,
            ];
            let others: Vec<u8> = tags.into_iter().filter(|tag| *tag != one[0]).collect();
            one[0] = random.one_of(&others);
        }
        1 => one[1] ^= random.one_of(&[1, 0x40, 0x80]),
        2 => one[2] = one[2].wrapping_add(random.one_of(&[1, 255])),
        _ => {
            let len = random.below(one.len());
            one.truncate(len);
            fields.truncate(at + 1);
        }
    }
}

/// Field 11 with too few or too many bytes.
pub fn bad_ciphertext(random: &mut Random) -> Vec<u8> {
    let len = random.one_of(&[0, 1, 2, 8_195, 8_196, 16_384]);
    field(0x11, &random.some_bytes(len))
}

/// One of several changes to the bytes of a book.
pub fn damage(random: &mut Random, book: &mut Vec<u8>, other: &[u8]) {
    let at = random.below(book.len());
    match random.below(8) {
        0 => book[at] ^= 1 << random.below(8),
        1 => book[at] = random.one_of(&[0x00, 0x01, 0x10, 0x11, 0x12, 0x14, 0x20, 0x21, 0xFF]),
        2 => book.truncate(at),
        3 => drop(book.remove(at)),
        4 => book.insert(at, random.below(256) as u8),
        5 => {
            let len = random.below(book.len() - at) + 1;
            book.drain(at..at + len);
        }
        6 => {
            let (from, len) = (random.below(other.len()), random.below(60));
            let len = len.min(book.len() - at).min(other.len() - from);
            book[at..at + len].copy_from_slice(&other[from..from + len]);
        }
        _ => {
            let with = random.below(book.len());
            book.swap(at, with);
        }
    }
    if book.is_empty() {
        book.push(1);
    }
}

/// Opening fields, some units and perhaps a close, in each of which most, but not all, is as it must be:
/// most seals are not, and now and then a kind is not the book's.
pub fn some_frames(random: &mut Random, book: &Book) -> Vec<u8> {
    let rarely = |random: &mut Random| random.below(24) == 0;
    let mut suite = (book.cipher, book.steps);
    if rarely(random) {
        suite = random.one_of(&UNLISTED);
    }
    let mut fields = vec![
        field(0x01, &book.number.to_be_bytes()),
        field(0x02, &[suite.0, suite.1]),
    ];
    let units = random.below(5);
    let some_kind = |random: &mut Random| Book {
        kind: match rarely(random) {
            true => random.one_of(&Kind::ALL),
            false => book.kind,
        },
        ..book.clone()
    };
    for running in 0..units {
        let book = &some_kind(random);
        let number = running ^ usize::from(rarely(random));
        let codes = match rarely(random) {
            true => bad_codes(random),
            false => good_codes(random),
        };
        let m = match random.below(40) {
            0 => random.one_of(&[0, 1, 2, 8_193, 8_194, 8_195, 9_000]),
            _ => 3 + random.below(40),
        };
        if random.below(3) == 0 {
            let s = random.below(m + 2);
            let text = text(random, s, m);
            fields.extend(unit_fields(book, running, number, codes, &text));
        } else {
            let value = [&number_in(book.kind, number)[..], &codes].concat();
            fields.push(field(book.kind.header_tag(), &value));
            fields.push(field(0x11, &random.some_bytes(m)));
            fields.push(field(0x12, &random.bytes::<16>()));
        }
    }
    if !rarely(random) {
        let count = units ^ usize::from(rarely(random));
        let [head, mut tag] = close_fields(&some_kind(random), units, count);
        if rarely(random) {
            tag[3 + random.below(16)] ^= 1 << random.below(8);
        }
        fields.extend([head, tag]);
    }
    if rarely(random) {
        let len = 1 + random.below(30);
        fields.push(random.some_bytes(len));
    }
    if rarely(random) {
        let at = random.below(fields.len());
        spoil(random, &mut fields, at);
    }
    fields.concat()
}

/// Bytes that are changed in a book of this kind with one unit, and what is then said of it as unit 16,777,215 or
/// a later one: 13 comes before its number, its languages and the rest are looked at, and behind its header's
/// field and all of the opening fields.
pub fn too_many(kind: Kind) -> [(usize, u8, u32); 9] {
    let codes = 19 + kind.number_bytes();
    [
        (codes - 1, 1, 13),
        (codes, 0, 13),
        (codes + 4, 0, 13),
        (codes + 6, 2, 13),
        (16, 0x11, 14),
        (18, 7, 14),
        (15, 5, 1),
        (14, 0, 1),
        (13, 3, 14),
    ]
}

/// Books that are refused for their opening fields, or end behind these, with the refusal, whatever else
/// they are asked for. They are made from this one.
pub fn bad_openings(bytes: &[u8]) -> [(Vec<u8>, u32); 5] {
    let with = |changes: &[(usize, u8)]| {
        let mut changed = bytes.to_vec();
        for (at, byte) in changes {
            changed[*at] = *byte;
        }
        changed
    };
    [
        (Vec::new(), 14),
        (bytes[..15].to_vec(), 14),
        (bytes[..16].to_vec(), 14),
        (with(&[(15, 0)]), 1),
        (with(&[(15, 0), (11, 0x12)]), 14),
    ]
}

/// Numbers of units: small ones, one past two bytes, those at the limit, and larger ones.
pub const SOME_NUMBERS: [u64; 9] = [
    0,
    1,
    2,
    3,
    0x1_0000,
    16_777_214,
    16_777_215,
    1 << 32,
    u64::MAX,
];

/// Places of a book of so many bytes, and many past its end: such as would be these places in fewer bits, and
/// the last that there are.
pub fn some_places(len: usize, places: &[usize]) -> Vec<usize> {
    let wide = [1 << 16, 1 << 32, 1 << 63];
    let wide = wide.map(|wide| places.iter().map(|at| at + wide).collect::<Vec<_>>());
    let last = (0..70).map(|n| usize::MAX - n);
    (0..=len + 40).chain(wide.concat()).chain(last).collect()
}

/// Long texts: a source length s, how many bytes follow it, and the refusal: s and t at their limits, and
/// a text at its limit.
pub const LONG_TEXTS: [(usize, usize, Option<u32>); 14] = [
    (4_096, 4_096, None),
    (4_097, 4_097, Some(12)),
    (4_096, 4_095, Some(12)),
    (4_096, 8_192, None),
    (4_095, 8_191, None),
    (4_097, 8_192, Some(12)),
    (4_095, 8_192, Some(12)),
    (8_192, 8_192, Some(12)),
    (1, 4_097, None),
    (1, 4_098, Some(12)),
    (0, 4_096, Some(12)),
    (4_096, 8_193, Some(14)),
    (4_097, 8_193, Some(14)),
    (4_096, 16_000, Some(14)),
];
