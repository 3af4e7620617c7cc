//! The parts of a book, written by the library, or by the second implementation where it is of an older kind, or
//! sealed with the library one by one.

use reference::book::{field, Book, Kind};
use reference::random::Random;
use reference::writer as second;
use sealed_book::raw::{seal, Writer, FIRST_UNIT};

use super::writing::{by_value, unit};

/// A book of any kind that is read, with no units yet.
pub fn some_book(random: &mut Random, suite: (u8, u8)) -> Book {
    Book {
        kind: random.one_of(&Kind::ALL),
        ..Book::random(random, suite)
    }
}

/// A book of each kind, with no units yet.
pub fn books_of_each_kind(random: &mut Random, suite: (u8, u8)) -> [Book; 2] {
    Kind::ALL.map(|kind| Book {
        kind,
        ..Book::random(random, suite)
    })
}

/// A book of any kind with so many units, each segment shorter than `end` bytes, which is 2 or more.
pub fn random_book(random: &mut Random, suite: (u8, u8), units: usize, end: usize) -> Book {
    let mut book = some_book(random, suite);
    for _ in 0..units {
        let (s, t) = (1 + random.below(end - 1), random.below(end));
        book.units.push(unit(random, s, t));
    }
    book
}

/// A book of any kind with three units of the same lengths.
pub fn three_units(random: &mut Random, suite: (u8, u8)) -> Book {
    let mut book = some_book(random, suite);
    book.units = (0..3).map(|_| unit(random, 20, 21)).collect();
    book
}

/// A number in as many bytes as a unit's number and the count have in this kind; higher ones are lost.
pub fn number_in(kind: Kind, number: usize) -> Vec<u8> {
    let bytes = (number as u32).to_be_bytes();
    bytes[4 - kind.number_bytes()..].to_vec()
}

/// A number that differs from this one in one bit of the bytes that it has in this kind.
pub fn another(random: &mut Random, kind: Kind, number: usize) -> usize {
    let bits = match kind {
        Kind::Tag10 => &[1, 2, 0x100, 0x8000][..],
        Kind::Tag14 => &[1, 2, 0x100, 0x8000, 0x1_0000, 0x100_0000, 0x8000_0000],
    };
    number ^ random.one_of(bits)
}

/// Writes the low byte of a number into a unit's header, where it stands before the two codes.
pub fn renumber(unit: &mut [u8], number: u8) {
    let end = 3 + usize::from(unit[2]);
    unit[end - 5] = number;
}

/// The book's bytes as its writer leaves them, and that writer: the library's, or of an older kind the earlier
/// one, which the second implementation has.
pub fn written(book: &Book) -> (Vec<u8>, Writer) {
    let kind = book.kind;
    let units = book.units.iter().map(|unit| unit.len(kind));
    let mut buffer = vec![0; FIRST_UNIT + units.sum::<usize>() + kind.close_len()];
    if kind != Kind::NEWEST {
        return written_before(book, buffer);
    }
    let (mut writer, mut answer) =
        Writer::start(book.cipher, book.steps, &book.key, book.number, &mut buffer);
    assert_eq!(answer, Ok(()));
    for unit in &book.units {
        let (source, target) = (&unit.source, &unit.target);
        (writer, answer) = writer.add(&mut buffer, &unit.from, &unit.to, source, target);
        assert_eq!(answer, Ok(()));
    }
    (writer, answer) = writer.close(&mut buffer);
    assert_eq!(answer, Ok(()));
    assert_eq!(writer.place, buffer.len() as u64);
    (buffer, writer)
}

/// The same by the earlier writer of the book's kind.
fn written_before(book: &Book, mut buffer: Vec<u8>) -> (Vec<u8>, Writer) {
    let kind = book.kind;
    let (mut writer, mut answer) =
        second::start(book.cipher, book.steps, &book.key, book.number, &mut buffer);
    assert_eq!(answer, Ok(()));
    for unit in &book.units {
        let (source, target) = (&unit.source, &unit.target);
        (writer, answer) = writer.add_of(kind, &mut buffer, unit.from, unit.to, source, target);
        assert_eq!(answer, Ok(()));
    }
    (writer, answer) = writer.close_of(kind, &mut buffer);
    assert_eq!(answer, Ok(()));
    assert_eq!(writer.place, buffer.len() as u64);
    (buffer, by_value(&writer))
}

/// A book's fields 01 and 02, its units and its close.
#[derive(Clone)]
pub struct Parts {
    pub opening: Vec<u8>,
    pub units: Vec<Vec<u8>>,
    pub close: Vec<u8>,
}

impl Parts {
    /// The parts of the book as it is written.
    pub fn of(book: &Book) -> Parts {
        let (bytes, _) = written(book);
        let mut rest = &bytes[..];
        let mut cut = |len| {
            let (part, after) = rest.split_at(len);
            rest = after;
            part.to_vec()
        };
        let units = book.units.iter();
        Parts {
            opening: cut(FIRST_UNIT),
            units: units.map(|unit| cut(unit.len(book.kind))).collect(),
            close: cut(book.kind.close_len()),
        }
    }

    /// The bytes of all parts.
    pub fn joined(&self) -> Vec<u8> {
        [&self.opening, &self.units.concat(), &self.close]
            .map(|part| &part[..])
            .concat()
    }
}

/// The header and fields 11 and 12 of a unit of the book's kind, with this number, these codes and this text,
/// whatever they are, sealed as the unit of the running number.
pub fn unit_fields(
    book: &Book,
    running: usize,
    number: usize,
    codes: [u8; 4],
    text: &[u8],
) -> [Vec<u8>; 3] {
    let value = [&number_in(book.kind, number)[..], &codes].concat();
    let head = field(book.kind.header_tag(), &value);
    let (ciphertext, tag) = sealed(book, running, &head, text);
    [head, field(0x11, &ciphertext), field(0x12, &tag)]
}

/// Both fields of a close of the book's kind with this count, sealed as the close after so many units.
pub fn close_fields(book: &Book, units: usize, count: usize) -> [Vec<u8>; 2] {
    let head = field(book.kind.close_tag(), &number_in(book.kind, count));
    let (_, tag) = sealed(book, units, &head, &[]);
    [head, field(0x12, &tag)]
}

/// Ciphertext and tag of a text in this book, with fields 01, 02 and one more sealed along.
pub fn sealed(book: &Book, number: usize, head: &[u8], text: &[u8]) -> (Vec<u8>, Vec<u8>) {
    let opening = [
        field(0x01, &book.number.to_be_bytes()),
        field(0x02, &[book.cipher, book.steps]),
    ];
    let header = [&opening.concat(), head].concat();
    let nonce = [
        &book.number.to_be_bytes()[..],
        &(number as u32).to_be_bytes(),
    ]
    .concat();
    let mut out = vec![0; text.len() + 16];
    let answer = seal(
        book.cipher,
        book.steps,
        &book.key,
        &nonce,
        &header,
        text,
        &mut out,
    );
    assert!(answer.is_ok());
    let tag = out.split_off(text.len());
    (out, tag)
}
