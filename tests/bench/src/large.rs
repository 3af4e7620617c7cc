//! A large book, as the library has written it, and an old one of the same units. Their sources are of words,
//! their targets any bytes.

use bench::baseline;
use bench::words::sentence;
use reference::book::{Kind, Unit};
use reference::random::Random;
use sealed_book::raw;

/// How many units it has.
pub const UNITS: usize = 60_000;

/// One unit of so many is a long one, of 4,096 + 4,096 bytes: units 1, 201, 401, .. The others have 80
/// to 120 bytes in either segment.
pub const ONE_LONG_IN: usize = 200;

/// The first long unit.
pub const LONG: usize = 1;

/// Units of 100 + 100 bytes, so that fetching them differs by the walk alone. What stands before the
/// near one is about a megabyte.
pub const FIRST: usize = 0;
pub const NEAR: usize = 4_000;
pub const MIDDLE: usize = 30_000;
pub const LAST: usize = 59_999;

const NUMBER: u64 = 7;

/// The book, or as many of its first units, closed.
pub struct LargeBook {
    pub suite: (u8, u8),
    pub key: [u8; 16],
    pub units: Vec<Unit>,
    pub bytes: Vec<u8>,
}

impl LargeBook {
    pub fn new(suite: (u8, u8), count: usize) -> LargeBook {
        let mut random = Random::new(2014);
        let mut book = LargeBook {
            suite,
            key: random.bytes(),
            units: Vec::new(),
            bytes: Vec::new(),
        };
        for i in 0..count {
            let [s, t] = lengths(i, &mut random);
            let (source, target) = (sentence(&mut random, s), random.some_bytes(t));
            book.units.push(Unit {
                from: *b"en",
                to: *b"de",
                source,
                target,
            });
        }
        let segments: usize = book.units.iter().map(segments).sum();
        let mut bytes = vec![0; raw::book_room(count, segments)];
        book.write(&mut bytes);
        book.bytes = bytes;
        book
    }

    /// Writes the whole book with the library, to a buffer that has room for it and no more.
    pub fn write(&self, buffer: &mut [u8]) {
        let (cipher, steps) = self.suite;
        let mut writer = [0; raw::LEN];
        let answer = raw::start(cipher, steps, &self.key, NUMBER, buffer, &mut writer);
        assert_eq!(answer, Ok(()));
        for unit in &self.units {
            let (source, target) = (&unit.source, &unit.target);
            let answer = raw::add(&mut writer, buffer, &unit.from, &unit.to, source, target);
            assert_eq!(answer, Ok(()));
        }
        assert_eq!(raw::close(&mut writer, buffer), Ok(()));
        assert_eq!(raw::place(&writer), buffer.len() as u64);
    }

    /// Writes it with the second implementation.
    pub fn write_by_reference(&self, buffer: &mut [u8]) {
        let (cipher, steps) = self.suite;
        let passed = |(writer, answer)| {
            assert_eq!(answer, Ok(()));
            writer
        };
        let started = reference::writer::start(cipher, steps, &self.key, NUMBER, buffer);
        let mut writer = passed(started);
        for unit in &self.units {
            let (source, target) = (&unit.source, &unit.target);
            writer = passed(writer.add(buffer, unit.from, unit.to, source, target));
        }
        passed(writer.close(buffer));
    }

    /// Writes it with the baseline in C.
    pub fn write_in_c(&self, buffer: &mut [u8]) {
        let (cipher, steps) = self.suite;
        let (mut writer, answer) = baseline::start(cipher, steps, &self.key, NUMBER, buffer);
        assert_eq!(answer, Ok(()));
        for unit in &self.units {
            let (source, target) = (&unit.source, &unit.target);
            let answer = writer.add(buffer, &unit.from, &unit.to, source, target);
            assert_eq!(answer, Ok(()));
        }
        assert_eq!(writer.close(buffer), Ok(()));
    }

    /// The book of the same units as the writer of old books left it, by the baseline in C.
    pub fn old(&self) -> Vec<u8> {
        let kind = Kind::Tag10;
        let units = self.units.iter().map(|unit| unit.len(kind));
        let mut buffer = vec![0; raw::FIRST_UNIT + units.sum::<usize>() + kind.close_len()];
        let (cipher, steps) = self.suite;
        let (mut writer, answer) = baseline::start(cipher, steps, &self.key, NUMBER, &mut buffer);
        assert_eq!(answer, Ok(()));
        for unit in &self.units {
            let (source, target) = (&unit.source, &unit.target);
            let answer = writer.add_of(kind, &mut buffer, &unit.from, &unit.to, source, target);
            assert_eq!(answer, Ok(()));
        }
        assert_eq!(writer.close_of(kind, &mut buffer), Ok(()));
        assert_eq!(writer.place, buffer.len() as u64);
        buffer
    }
}

/// How many bytes source and target have together.
pub fn segments(unit: &Unit) -> usize {
    unit.source.len() + unit.target.len()
}

/// The lengths of source and target of unit i.
fn lengths(i: usize, random: &mut Random) -> [usize; 2] {
    match i {
        FIRST | NEAR | MIDDLE | LAST => [100, 100],
        i if i % ONE_LONG_IN == LONG => [4_096, 4_096],
        _ => [80, 80].map(|len| len + random.below(41)),
    }
}
