//! The writer of a book, one call after the other.
//!
//! Quoted sentences are the scope's. Refusals are given by their numbers. The bytes are put down at
//! their places, and not by way of `book`, so that the two can be held against each other.

use crate::book::{languages_allowed, lengths_allowed, Kind};
use crate::cipher::listed;
use crate::sealing::seal;
use crate::state::Block;

/// "The writer holds suite, key, book number, place, unit count, call total, and whether it is closed."
#[derive(Clone, Copy, Debug, PartialEq, Eq)]
pub struct Writer {
    pub cipher: u8,
    pub steps: u8,
    pub key: Block,
    pub number: u64,
    pub place: u64,
    pub units: u64,
    pub calls: u64,
    pub closed: bool,
}

/// Nothing, or the first refusal.
pub type Answer = Result<(), u32>;

/// "Start takes suite, key, book number and buffer, and writes 16 bytes; refused, it hands back a
/// closed writer of zeros." Refusals 1, 2 and 7.
pub fn start(
    cipher: u8,
    steps: u8,
    key: &[u8],
    number: u64,
    buffer: &mut [u8],
) -> (Writer, Answer) {
    let refusal = match Block::try_from(key) {
        _ if !listed(cipher, steps) => 1,
        Err(_) => 2,
        Ok(_) if buffer.len() < 16 => 7,
        Ok(key) => {
            let writer = Writer {
                cipher,
                steps,
                key,
                number,
                place: 16,
                units: 0,
                calls: 0,
                closed: false,
            };
            buffer[..16].copy_from_slice(&writer.opening());
            return (writer, Ok(()));
        }
    };
    (Writer::ZEROS, Err(refusal))
}

impl Writer {
    /// What a refused start hands back.
    pub const ZEROS: Writer = Writer {
        cipher: 0,
        steps: 0,
        key: [0; 16],
        number: 0,
        place: 0,
        units: 0,
        calls: 0,
        closed: true,
    };

    /// Adds a unit. Refusals 9, 10, 11, 12, 13 and 7. "The writer makes only the wide kind."
    pub fn add(
        self,
        buffer: &mut [u8],
        from: [u8; 2],
        to: [u8; 2],
        source: &[u8],
        target: &[u8],
    ) -> (Writer, Answer) {
        self.add_of(Kind::NEWEST, buffer, from, to, source, target)
    }

    /// Closes the book. Refusals 9, 10 and 7.
    pub fn close(self, buffer: &mut [u8]) -> (Writer, Answer) {
        self.close_of(Kind::NEWEST, buffer)
    }

    /// Adds a unit as the writer of this kind, with its own limit in 9 and 13.
    pub fn add_of(
        self,
        kind: Kind,
        buffer: &mut [u8],
        from: [u8; 2],
        to: [u8; 2],
        source: &[u8],
        target: &[u8],
    ) -> (Writer, Answer) {
        let (s, t) = (source.len(), target.len());
        let refusal = if self.invalid(kind, buffer.len()) {
            9
        } else if self.closed {
            10
        } else if !languages_allowed(from, to) {
            11
        } else if !lengths_allowed(s, t) {
            12
        } else if self.units == kind.most_units() as u64 {
            13
        } else if self.room(buffer.len()) < kind.unit_len(s, t) {
            7
        } else {
            return (self.added(kind, buffer, from, to, source, target), Ok(()));
        };
        (self, Err(refusal))
    }

    /// Closes the book as the writer of this kind, with its own limit in 9.
    pub fn close_of(self, kind: Kind, buffer: &mut [u8]) -> (Writer, Answer) {
        let refusal = if self.invalid(kind, buffer.len()) {
            9
        } else if self.closed {
            10
        } else if self.room(buffer.len()) < kind.close_len() {
            7
        } else {
            return (self.closing(kind, buffer), Ok(()));
        };
        (self, Err(refusal))
    }

    /// "writer with unlisted suite, place under 16 or past the buffer, count over 65,535, or call
    /// total over 1,024 × (count + 1)"; "Refusals 9 and 13 move to the new limit".
    fn invalid(&self, kind: Kind, buffer_len: usize) -> bool {
        let most_calls = 1_024 * (u128::from(self.units) + 1);
        !listed(self.cipher, self.steps)
            || self.place < 16
            || self.place > buffer_len as u64
            || self.units > kind.most_units() as u64
            || u128::from(self.calls) > most_calls
    }

    /// The bytes of the buffer from the place on.
    fn room(&self, buffer_len: usize) -> usize {
        buffer_len - self.place as usize
    }

    /// The writer after a unit that is not refused.
    fn added(
        mut self,
        kind: Kind,
        buffer: &mut [u8],
        from: [u8; 2],
        to: [u8; 2],
        source: &[u8],
        target: &[u8],
    ) -> Writer {
        let number = self.units as u32;
        let [n3, n2, n1, n0] = number.to_be_bytes();
        let [[f0, f1], [t0, t1]] = [from, to];
        let head = match kind {
            Kind::Tag10 => vec![0x10, 0, 6, n1, n0, f0, f1, t0, t1],
            Kind::Tag14 => vec![0x14, 0, 8, n3, n2, n1, n0, f0, f1, t0, t1],
        };

        let s = source.len() as u16;
        let mut text = s.to_be_bytes().to_vec();
        text.extend(source);
        text.extend(target);
        let m = text.len() as u16;
        let (sealed, calls) = self.sealed(number, &head, &text);
        let (ciphertext, tag) = sealed.split_at(text.len());

        self.put(buffer, &head);
        self.put(buffer, &[0x11]);
        self.put(buffer, &m.to_be_bytes());
        self.put(buffer, ciphertext);
        self.put(buffer, &[0x12, 0, 16]);
        self.put(buffer, tag);
        self.units += 1;
        self.calls += calls as u64;
        self
    }

    /// The writer after a close that is not refused.
    fn closing(mut self, kind: Kind, buffer: &mut [u8]) -> Writer {
        let count = self.units as u32;
        let [n3, n2, n1, n0] = count.to_be_bytes();
        let head = match kind {
            Kind::Tag10 => vec![0x20, 0, 2, n1, n0],
            Kind::Tag14 => vec![0x21, 0, 4, n3, n2, n1, n0],
        };
        let (tag, calls) = self.sealed(count, &head, &[]);
        self.put(buffer, &head);
        self.put(buffer, &[0x12, 0, 16]);
        self.put(buffer, &tag);
        self.calls += calls as u64;
        self.closed = true;
        self
    }

    /// Writes the bytes at the place, and moves it behind them.
    fn put(&mut self, buffer: &mut [u8], bytes: &[u8]) {
        let at = self.place as usize;
        buffer[at..at + bytes.len()].copy_from_slice(bytes);
        self.place += bytes.len() as u64;
    }

    /// Fields 01 and 02.
    fn opening(&self) -> [u8; 16] {
        let mut opening = [1, 0, 8, 0, 0, 0, 0, 0, 0, 0, 0, 2, 0, 2, 0, 0];
        opening[3..11].copy_from_slice(&self.number.to_be_bytes());
        opening[14] = self.cipher;
        opening[15] = self.steps;
        opening
    }

    /// The sealed bytes and the calls of a unit's text or the close's: "under the start's suite and
    /// key with the nonce and header above".
    fn sealed(&self, number: u32, head: &[u8], text: &[u8]) -> (Vec<u8>, usize) {
        let mut nonce = [0; 12];
        nonce[..8].copy_from_slice(&self.number.to_be_bytes());
        nonce[8..].copy_from_slice(&number.to_be_bytes());
        let header = [&self.opening(), head].concat();
        let len = text.len() + 16;
        let sealed = seal(
            self.cipher,
            self.steps,
            &self.key,
            &nonce,
            &header,
            text,
            len,
        );
        sealed.expect("a listed suite, and within the limits")
    }
}

impl Writer {
    /// The writer's 64 bytes, as the header for C lists them; those that are not used are 0.
    pub fn encoded(&self) -> [u8; 64] {
        let mut bytes = [0; 64];
        bytes[0] = self.cipher;
        bytes[1] = self.steps;
        bytes[2] = u8::from(!self.closed);
        bytes[8..16].copy_from_slice(&self.number.to_be_bytes());
        bytes[16..32].copy_from_slice(&self.key);
        bytes[32..40].copy_from_slice(&self.place.to_be_bytes());
        bytes[40..48].copy_from_slice(&self.units.to_be_bytes());
        bytes[48..56].copy_from_slice(&self.calls.to_be_bytes());
        bytes
    }

    /// The writer that any 64 bytes are answered as.
    pub fn decoded(bytes: &[u8; 64]) -> Writer {
        let number = |at: usize| u64::from_be_bytes(bytes[at..at + 8].try_into().unwrap());
        Writer {
            cipher: bytes[0],
            steps: bytes[1],
            key: bytes[16..32].try_into().unwrap(),
            number: number(8),
            place: number(32),
            units: number(40),
            calls: number(48),
            closed: bytes[2] != 1,
        }
    }
}

#[cfg(test)]
mod tests {
    use super::*;
    use crate::book::{Book, Unit};
    use crate::cipher::SUITES;
    use crate::random::Random;

    fn started(buffer: &mut [u8]) -> Writer {
        let (writer, answer) = start(1, 6, &[5; 16], 7, buffer);
        assert_eq!(answer, Ok(()));
        writer
    }

    /// Step by step, the bytes are those of the book laid out at once, of either kind; "the writer makes only
    /// the wide kind".
    #[test]
    fn books_are_those_laid_out_at_once() {
        let mut random = Random::new(3);
        for (kind, suite) in Kind::ALL
            .into_iter()
            .flat_map(|kind| SUITES.map(|suite| (kind, suite)))
        {
            let mut book = Book::random(&mut random, suite);
            book.kind = kind;
            for (to, s, t) in [
                (b"zh", 1, 0),
                (b"en", 5, 6),
                (b"zh", 14, 0),
                (b"zh", 4_096, 4_096),
                (b"en", 30, 47),
            ] {
                book.units.push(Unit {
                    from: *b"en",
                    to: *to,
                    source: random.some_bytes(s),
                    target: random.some_bytes(t),
                });
                let mut buffer = vec![0xEE; 9_000];
                let (mut writer, answer) =
                    start(book.cipher, book.steps, &book.key, book.number, &mut buffer);
                assert_eq!(answer, Ok(()));
                for unit in &book.units {
                    let answer;
                    let (source, target) = (&unit.source, &unit.target);
                    (writer, answer) = match kind {
                        Kind::Tag10 => {
                            writer.add_of(kind, &mut buffer, unit.from, unit.to, source, target)
                        }
                        Kind::Tag14 => writer.add(&mut buffer, unit.from, unit.to, source, target),
                    };
                    assert_eq!(answer, Ok(()));
                }
                let (writer, answer) = match kind {
                    Kind::Tag10 => writer.close_of(kind, &mut buffer),
                    Kind::Tag14 => writer.close(&mut buffer),
                };
                assert_eq!(answer, Ok(()));
                let (bytes, calls) = book.laid_out();
                let place = bytes.len();
                assert_eq!(buffer[..place], bytes);
                assert!(buffer[place..].iter().all(|byte| *byte == 0xEE));
                assert_eq!((writer.place, writer.calls), (place as u64, calls as u64));
                assert_eq!(writer.units, book.units.len() as u64);
                assert!(writer.closed);
                assert_eq!(writer.close(&mut buffer), (writer, Err(10)));
            }
        }
    }

    /// Known value 10, and the other refusals of a start.
    #[test]
    fn known_starts() {
        let mut buffer = [0xEE; 16];
        for (cipher, steps, key_len, len, number) in [
            (1, 14, 15, 15, 1),
            (1, 14, 16, 16, 1),
            (1, 10, 15, 15, 2),
            (1, 10, 17, 16, 2),
            (1, 10, 16, 15, 7),
            (1, 10, 16, 0, 7),
        ] {
            let answer = start(cipher, steps, &vec![1; key_len], 3, &mut buffer[..len]);
            assert_eq!(answer, (Writer::ZEROS, Err(number)));
            assert_eq!(buffer, [0xEE; 16]);
        }
        let (writer, answer) = start(1, 10, &[1; 16], 7, &mut buffer);
        assert_eq!(answer, Ok(()));
        assert_eq!((writer.place, writer.units, writer.calls), (16, 0, 0));
        assert_eq!(buffer, [1, 0, 8, 0, 0, 0, 0, 0, 0, 0, 7, 2, 0, 2, 1, 10]);
    }

    /// Known value 11.
    #[test]
    fn known_lengths() {
        let mut buffer = vec![0; 9_000];
        let writer = started(&mut buffer);
        for (s, t, expected) in [
            (0, 0, Err(12)),
            (0, 5, Err(12)),
            (1, 0, Ok(())),
            (4_096, 0, Ok(())),
            (4_096, 4_096, Ok(())),
            (4_097, 0, Err(12)),
            (1, 4_096, Ok(())),
            (1, 4_097, Err(12)),
        ] {
            let (source, target) = (vec![1; s], vec![2; t]);
            let (next, answer) = writer.add(&mut buffer, *b"en", *b"de", &source, &target);
            assert_eq!(answer, expected, "({s}, {t})");
            let moved = if answer.is_ok() { 35 + s + t } else { 0 };
            assert_eq!(next.place, 16 + moved as u64);
            let (next, answer) =
                writer.add_of(Kind::Tag10, &mut buffer, *b"en", *b"de", &source, &target);
            assert_eq!(answer, expected, "({s}, {t})");
            let moved = if answer.is_ok() { 33 + s + t } else { 0 };
            assert_eq!(next.place, 16 + moved as u64);
        }
    }

    /// The refusals of adding and closing in their order, for each kind with its limit, and with the room of
    /// a unit with one byte and of a close.
    #[test]
    fn the_first_refusal_is_given() {
        for (kind, most, unit, close) in [
            (Kind::Tag10, 65_535, 34, 24),
            (Kind::Tag14, 16_777_215, 36, 26),
        ] {
            let mut buffer = vec![0; 100];
            let open = Writer {
                units: most,
                ..started(&mut buffer)
            };
            let closed = Writer {
                closed: true,
                ..open
            };
            let bad = Writer {
                place: 15,
                ..closed
            };
            let before = buffer.clone();
            let mut add = |writer: Writer, to: &[u8; 2], source: &[u8], len: usize| {
                let buffer = &mut buffer[..len];
                let (next, answer) = writer.add_of(kind, buffer, *b"en", *to, source, &[]);
                assert_eq!(next == writer, answer.is_err());
                answer
            };
            assert_eq!(add(bad, b"dE", &[], 16), Err(9));
            assert_eq!(add(closed, b"dE", &[], 16), Err(10));
            assert_eq!(add(open, b"dE", &[], 16), Err(11));
            assert_eq!(add(open, b"e\0", &[], 16), Err(11));
            for to in [b"de", b"en"] {
                assert_eq!(add(open, to, &[], 16), Err(12));
                assert_eq!(add(open, to, &[1], 16), Err(13));
            }
            let one_less = Writer {
                units: most - 1,
                ..open
            };
            assert_eq!(add(one_less, b"de", &[1], 16 + unit - 1), Err(7));
            assert_eq!(add(one_less, b"en", &[1], 16 + unit - 1), Err(7));
            assert_eq!(bad.close_of(kind, &mut buffer[..16]), (bad, Err(9)));
            assert_eq!(closed.close_of(kind, &mut buffer[..16]), (closed, Err(10)));
            let short = &mut buffer[..16 + close - 1];
            assert_eq!(open.close_of(kind, short), (open, Err(7)));
            assert_eq!(buffer, before);
            assert_eq!(open.close_of(kind, &mut buffer[..16 + close]).1, Ok(()));
            let buffer = &mut buffer[..16 + unit];
            let (next, answer) = one_less.add_of(kind, buffer, *b"en", *b"de", &[1], &[]);
            assert_eq!((next.units, answer), (most, Ok(())));
        }
    }

    /// Each number of a writer at its limits, and far over them.
    #[test]
    fn limits_of_a_writer() {
        let mut buffer = vec![0; 100];
        let writer = started(&mut buffer);
        for (kind, close) in [(Kind::Tag10, 24), (Kind::Tag14, 26)] {
            for (place, expected) in [
                (0, Err(9)),
                (15, Err(9)),
                (16, Ok(())),
                (100 - close, Ok(())),
                (101 - close, Err(7)),
                (100, Err(7)),
                (101, Err(9)),
                (u64::MAX, Err(9)),
            ] {
                let (_, answer) = Writer { place, ..writer }.close_of(kind, &mut buffer);
                assert_eq!(answer, expected, "{kind:?}, {place}");
            }
        }
        // the answers of an earlier writer, with two bytes for its numbers, and of the writer
        let (ok, bad) = (Ok(()), Err(9));
        for (units, calls, old, wide) in [
            (0, 1_024, ok, ok),
            (0, 1_025, bad, bad),
            (65_535, 1_024 * 65_536, ok, ok),
            (65_535, 1_024 * 65_536 + 1, bad, bad),
            (65_536, 0, bad, ok),
            (65_536, 1_024 * 65_537, bad, ok),
            (65_536, 1_024 * 65_537 + 1, bad, bad),
            (16_777_214, 0, bad, ok),
            (16_777_215, 1_024 * 16_777_216, bad, ok),
            (16_777_215, 1_024 * 16_777_216 + 1, bad, bad),
            (16_777_216, 0, bad, bad),
            (16_777_216, 1_024 * 16_777_217, bad, bad),
            (1 << 32, 0, bad, bad),
            (u64::MAX, 0, bad, bad),
            (u64::MAX, u64::MAX, bad, bad),
            (u64::MAX / 1_024, u64::MAX, bad, bad),
        ] {
            let writer = Writer {
                units,
                calls,
                ..writer
            };
            let answer = writer.close_of(Kind::Tag10, &mut buffer).1;
            assert_eq!(answer, old, "({units}, {calls})");
            let answer = writer.close(&mut buffer).1;
            assert_eq!(answer, wide, "({units}, {calls})");
        }
        // "at most 16,777,215 units": the last unit of a writer, and one more
        for (units, old, wide) in [
            (65_534, Ok(()), Ok(())),
            (65_535, Err(13), Ok(())),
            (65_536, Err(9), Ok(())),
            (16_777_214, Err(9), Ok(())),
            (16_777_215, Err(9), Err(13)),
            (16_777_216, Err(9), Err(9)),
        ] {
            let writer = Writer { units, ..writer };
            let (from, to) = (*b"en", *b"de");
            let answer = writer
                .add_of(Kind::Tag10, &mut buffer, from, to, b"x", b"")
                .1;
            assert_eq!(answer, old, "{units}");
            let answer = writer.add(&mut buffer, from, to, b"x", b"").1;
            assert_eq!(answer, wide, "{units}");
        }
    }

    /// The numbers of wide units and closes, with each byte set, in the header, and in the nonce: "the unit
    /// number in 4 bytes (the count, at the close)".
    #[test]
    fn wide_numbers() {
        let mut buffer = vec![0; 200];
        let opening = started(&mut buffer);
        let before = buffer[..16].to_vec();
        for units in [0, 255, 256, 65_535, 65_536, 0x00FE_FDFC, 16_777_214] {
            let writer = Writer { units, ..opening };
            let (next, answer) = writer.add(&mut buffer, *b"en", *b"de", b"valve", b"");
            assert_eq!(answer, Ok(()));
            assert_eq!((next.place, next.units), (16 + 40, units + 1));
            let number = (units as u32).to_be_bytes();
            let head = [&[0x14, 0, 8][..], &number, b"ende"].concat();
            assert_eq!(buffer[16..27], head);
            let nonce = [&[0, 0, 0, 0, 0, 0, 0, 7][..], &number].concat();
            let header = [&before[..], &head].concat();
            let text = b"\x00\x05valve";
            let (sealed, calls) = seal(1, 6, &[5; 16], &nonce, &header, text, 23).unwrap();
            assert_eq!([&buffer[30..37], &buffer[40..56]].concat(), sealed);
            assert_eq!(next.calls, calls as u64);

            let (_, answer) = writer.close(&mut buffer);
            assert_eq!(answer, Ok(()));
            let head = [&[0x21, 0, 4][..], &number].concat();
            assert_eq!(buffer[16..23], head);
            let header = [&before[..], &head].concat();
            let (tag, _) = seal(1, 6, &[5; 16], &nonce, &header, &[], 16).unwrap();
            assert_eq!(buffer[26..42], tag);
        }
    }

    #[test]
    fn bytes_there_and_back() {
        let mut random = Random::new(64);
        for _ in 0..100 {
            let mut bytes: [u8; 64] = random.bytes();
            bytes[2] = random.below(4) as u8;
            let writer = Writer::decoded(&bytes);
            assert_eq!(writer.closed, bytes[2] != 1);
            let encoded = writer.encoded();
            assert_eq!(Writer::decoded(&encoded), writer);
            bytes[2] = u8::from(bytes[2] == 1);
            bytes[3..8].fill(0);
            bytes[56..].fill(0);
            assert_eq!(encoded, bytes);
        }
        assert_eq!(Writer::ZEROS.encoded(), [0; 64]);
    }
}
