//! The writer in the library and in the reference, with every byte that a call leaves compared.

use std::hint::black_box;
use std::ptr::null_mut;

use reference::book::{Book, Kind, Unit};
use reference::random::Random;
use reference::writer as second;
use reference::writer::Answer;
use sealed_book::foreign::{sb_add, sb_close, sb_start};
use sealed_book::raw::{Bytes, Writer};
use sealed_book::Refusal;

use super::{assert_same, pointer, refusal};

/// Bytes before and after the buffer and the writer that a call must leave as they are.
const GUARD: usize = 32;

/// A call of the writer, with what it is given to read.
#[derive(Clone, PartialEq)]
pub enum Call {
    Start {
        suite: (u8, u8),
        key: Vec<u8>,
        number: u64,
    },
    Add(Unit),
    Close,
}

/// A unit with random segments of these lengths, and two codes, which are the same every fourth time.
pub fn unit(random: &mut Random, s: usize, t: usize) -> Unit {
    let letter = |random: &mut Random| b'a' + random.below(26) as u8;
    let from = [letter(random), letter(random)];
    let to = match random.below(4) {
        0 => from,
        _ => [letter(random), letter(random)],
    };
    Unit {
        from,
        to,
        source: random.some_bytes(s),
        target: random.some_bytes(t),
    }
}

impl Call {
    /// The start of a book.
    pub fn start(book: &Book) -> Call {
        Call::Start {
            suite: (book.cipher, book.steps),
            key: book.key.to_vec(),
            number: book.number,
        }
    }

    /// How many bytes it writes where it is accepted.
    pub fn len(&self) -> usize {
        match self {
            Call::Start { .. } => 16,
            Call::Add(unit) => unit.len(Kind::NEWEST),
            Call::Close => Kind::NEWEST.close_len(),
        }
    }

    /// What the reference answers, the writer it hands back, and the 64 bytes that are then left.
    fn expected(&self, writer: &Bytes, buffer: &mut [u8]) -> (second::Writer, Bytes, Answer) {
        let before = second::Writer::decoded(writer);
        let (after, answer) = match self {
            Call::Start { suite, key, number } => {
                let (after, answer) = second::start(suite.0, suite.1, key, *number, buffer);
                return (after, after.encoded(), answer);
            }
            Call::Add(unit) => {
                let (source, target) = (&unit.source, &unit.target);
                before.add(buffer, unit.from, unit.to, source, target)
            }
            Call::Close => before.close(buffer),
        };
        let bytes = match answer {
            Ok(()) => after.encoded(),
            Err(_) => *writer,
        };
        (after, bytes, answer)
    }

    /// The library on a writer's bytes, with null for every slice of length 0.
    fn on_bytes(&self, writer: &mut Bytes, buffer: &mut [u8]) -> u32 {
        let (writer, buffer_len) = (writer.as_mut_ptr(), buffer.len());
        let buffer = match buffer_len {
            0 => null_mut(),
            _ => buffer.as_mut_ptr(),
        };
        // SAFETY: each slice is given with its length, the writer has 64 bytes, the codes two.
        unsafe {
            match self {
                Call::Start { suite, key, number } => sb_start(
                    suite.0,
                    suite.1,
                    pointer(key),
                    key.len(),
                    *number,
                    buffer,
                    buffer_len,
                    writer,
                ),
                Call::Add(unit) => sb_add(
                    writer,
                    buffer,
                    buffer_len,
                    unit.from.as_ptr(),
                    unit.to.as_ptr(),
                    pointer(&unit.source),
                    unit.source.len(),
                    pointer(&unit.target),
                    unit.target.len(),
                ),
                Call::Close => sb_close(writer, buffer, buffer_len),
            }
        }
    }

    /// The library on a writer by value.
    fn on_value(&self, writer: Writer, buffer: &mut [u8]) -> (Writer, Result<(), Refusal>) {
        match self {
            Call::Start { suite, key, number } => {
                Writer::start(suite.0, suite.1, key, *number, buffer)
            }
            Call::Add(unit) => {
                let (source, target) = (&unit.source, &unit.target);
                writer.add(buffer, &unit.from, &unit.to, source, target)
            }
            Call::Close => writer.close(buffer),
        }
    }

    fn name(&self) -> String {
        match self {
            Call::Start { suite, key, .. } => format!("start, suite {suite:?}, key {}", key.len()),
            Call::Add(unit) => format!(
                "add, languages {:?} and {:?}, source {}, target {}",
                unit.from,
                unit.to,
                unit.source.len(),
                unit.target.len()
            ),
            Call::Close => "close".to_string(),
        }
    }
}

/// The 64 bytes of a writer, with guards around them.
#[repr(C)]
struct Guarded {
    before: [u8; GUARD],
    bytes: Bytes,
    after: [u8; GUARD],
}

/// A writer and a buffer, as the calls so far have left them.
#[derive(Clone)]
pub struct Desk {
    pub writer: Bytes,
    pub buffer: Vec<u8>,
}

impl Desk {
    /// Random bytes in both.
    pub fn new(random: &mut Random, len: usize) -> Desk {
        Desk {
            writer: random.bytes(),
            buffer: random.some_bytes(len),
        }
    }

    /// A buffer with random bytes, and this writer.
    pub fn with(random: &mut Random, writer: second::Writer, len: usize) -> Desk {
        Desk {
            writer: writer.encoded(),
            ..Desk::new(random, len)
        }
    }

    /// The writer of the 64 bytes.
    pub fn value(&self) -> second::Writer {
        second::Writer::decoded(&self.writer)
    }

    /// Its place, for a writer that the calls have left.
    pub fn place(&self) -> usize {
        usize::try_from(self.value().place).expect("within the buffer")
    }

    /// Has the library make the call, with the first `len` bytes of the buffer lent, on the bytes and
    /// by value; holds all that is left to what the reference leaves; and returns the answer.
    pub fn call(&mut self, call: &Call, len: usize, name: &str) -> Answer {
        let name = || {
            let (call, writer) = (call.name(), self.value());
            format!("{call}, {len} bytes of the buffer, {writer:?}, {name}")
        };
        let mut expected = self.buffer.clone();
        let (value, bytes, answer) = call.expected(&self.writer, &mut expected[..len]);
        let mut lent = call.clone();

        let guard = [0x5A; GUARD];
        let mut room = [&guard, &self.buffer[..], &guard].concat();
        let mut writer = Guarded {
            before: guard,
            bytes: self.writer,
            after: guard,
        };
        let number = lent.on_bytes(&mut writer.bytes, &mut room[GUARD..GUARD + len]);
        black_box((&mut writer, &mut room));
        assert_eq!(number, answer.err().unwrap_or(0), "{}", name());
        assert_eq!(writer.bytes, bytes, "{}", name());
        assert_eq!((writer.before, writer.after), (guard, guard), "{}", name());
        assert_same(&room, &[&guard, &expected[..], &guard].concat(), name);

        let mut room = self.buffer.clone();
        let before = Writer::from_bytes(&self.writer);
        assert_eq!(before, by_value(&self.value()), "{}", name());
        assert_eq!(before.to_bytes(), self.value().encoded(), "{}", name());
        let (after, returned) = lent.on_value(before, &mut room[..len]);
        assert_eq!(returned, answer.map_err(refusal), "{}", name());
        assert_eq!(after, by_value(&value), "{}", name());
        assert_same(&room, &expected, name);
        black_box(&mut lent);
        assert!(
            lent == *call,
            "what is lent to be read is changed: {}",
            name()
        );

        self.writer = bytes;
        self.buffer = expected;
        answer
    }

    /// The same, where it is known that the call is accepted.
    pub fn passes(&mut self, call: &Call, len: usize, name: &str) {
        let answer = self.call(call, len, name);
        assert_eq!(answer, Ok(()), "reference: {}, {name}", call.name());
    }

    /// The same, where it is known that the call is refused.
    pub fn refuses(&mut self, call: &Call, len: usize, number: u32, name: &str) {
        let answer = self.call(call, len, name);
        assert_eq!(answer, Err(number), "reference: {}, {name}", call.name());
    }

    /// What stands before the place is this book, laid out at once, or that without its close.
    pub fn assert_holds(&self, book: &Book, name: &str) {
        let (mut bytes, mut calls) = book.laid_out();
        let writer = self.value();
        if !writer.closed {
            bytes.truncate(bytes.len() - Call::Close.len());
            calls -= 3;
        }
        let place = self.place();
        assert_eq!(place, bytes.len(), "{name}");
        assert_eq!(self.buffer[..place], bytes, "{name}");
        assert_eq!(writer.units, book.units.len() as u64, "{name}");
        assert_eq!(writer.calls, calls as u64, "{name}");
    }
}

/// The reference's writer as the library's.
pub fn by_value(writer: &second::Writer) -> Writer {
    Writer {
        cipher: writer.cipher,
        steps: writer.steps,
        key: writer.key,
        number: writer.number,
        place: writer.place,
        units: writer.units,
        calls: writer.calls,
        open: !writer.closed,
    }
}
