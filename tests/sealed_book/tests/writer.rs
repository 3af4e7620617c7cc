//! Books written by the library, beside those of the reference after every call, and beside the whole
//! book laid out at once.

mod common;

use common::writing::{unit, Call, Desk};
use reference::book::{Book, Kind};
use reference::cipher::SUITES;
use reference::random::Random;
use reference::vectors::{book_vectors, books_vectors};

const SEED: u64 = 0x5752_4954;

/// All calls of a book in their order.
fn calls(book: &Book) -> Vec<Call> {
    let adds = book.units.iter().cloned().map(Call::Add);
    let start = [Call::start(book)].into_iter();
    start.chain(adds).chain([Call::Close]).collect()
}

/// Writes the book into a buffer with so many bytes to spare, and holds it to the one laid out at once.
fn written(random: &mut Random, book: &Book, spare: usize, name: &str) -> Desk {
    let calls = calls(book);
    let len = calls.iter().map(Call::len).sum::<usize>() + spare;
    let mut desk = Desk::new(random, len);
    for call in &calls {
        desk.passes(call, len, name);
    }
    assert_eq!(desk.place(), len - spare, "{name}");
    desk.assert_holds(book, name);
    desk
}

/// Known value 8, as the writer makes it: "88 bytes, 7 calls".
#[test]
fn known_book() {
    let mut random = Random::new(SEED);
    let book = Book::known(Kind::NEWEST, random.bytes());
    let desk = written(&mut random, &book, 16, "known value 8");
    assert_eq!(
        desk.buffer[..16],
        [1, 0, 8, 0, 0, 0, 0, 0, 0, 0, 7, 2, 0, 2, 1, 0x0A]
    );
    assert_eq!(
        desk.buffer[16..27],
        [0x14, 0, 8, 0, 0, 0, 0, 0x65, 0x6E, 0x64, 0x65]
    );
    assert_eq!(desk.buffer[62..69], [0x21, 0, 4, 0, 0, 0, 1]);
    let writer = desk.value();
    assert_eq!((writer.place, writer.units, writer.calls), (88, 1, 7));
    assert!(writer.closed);
}

/// The accepted books of book.txt and books.txt, taken apart by the reference and written again: the wide ones as
/// they are, and the old ones with the same units, count and call total as wide ones.
#[test]
fn book_vectors_are_written_again() {
    let mut random = Random::new(SEED + 1);
    let mut kinds = [0; 2];
    for v in book_vectors().into_iter().chain(books_vectors()) {
        let Ok((units, calls)) = v.answer else {
            continue;
        };
        let name = format!("line {}", v.line);
        let key = v.key[..].try_into().expect("an accepted key");
        let mut book = Book::taken_apart(&key, &v.book).expect("a book");
        let kind = std::mem::replace(&mut book.kind, Kind::NEWEST);
        for spare in [0, 1, 30] {
            let desk = written(&mut random, &book, spare, &name);
            let len = match kind {
                Kind::Tag10 => v.book.len() + 2 * (units + 1),
                Kind::Tag14 => v.book.len(),
            };
            assert_eq!(desk.place(), len, "{name}");
            if kind == Kind::NEWEST {
                assert_eq!(desk.buffer[..len], v.book, "{name}");
            }
            let writer = desk.value();
            assert_eq!(writer.units, units as u64, "{name}");
            assert_eq!(writer.calls, calls as u64, "{name}");
        }
        kinds[usize::from(kind == Kind::NEWEST)] += 1;
    }
    assert_eq!(kinds, [8 + 11, 11]);
}

/// Buffers filled with one byte, in which a byte too many or too few would show.
#[test]
fn equal_bytes_in_the_buffer() {
    let mut random = Random::new(SEED + 2);
    for suite in SUITES {
        for byte in [0x00, 0x01, 0x12, 0x80, 0xFF] {
            let mut book = Book::random(&mut random, suite);
            book.units = [(1, 0), (14, 0), (7, 30)]
                .map(|(s, t)| unit(&mut random, s, t))
                .to_vec();
            let mut desk = Desk {
                writer: [byte; 64],
                buffer: vec![byte; 300],
            };
            for call in calls(&book) {
                desk.passes(&call, 300, "equal bytes");
            }
            desk.assert_holds(&book, "equal bytes");
            let rest = &desk.buffer[desk.place()..];
            assert!(!rest.is_empty() && rest.iter().all(|b| *b == byte));
        }
    }
}

/// Each call with one byte too few, then with just enough or with more.
#[test]
fn every_step_one_byte_short() {
    let mut random = Random::new(SEED + 3);
    for suite in SUITES {
        for count in [0, 1, 2, 9] {
            let name = format!("suite {suite:?}, {count} units, seed {:X}", SEED + 3);
            let mut book = Book::random(&mut random, suite);
            for _ in 0..count {
                let (s, t) = (1 + random.below(40), random.below(40));
                book.units.push(unit(&mut random, s, t));
            }
            let calls = calls(&book);
            let len = calls.iter().map(Call::len).sum::<usize>() + 20;
            let mut desk = Desk::new(&mut random, len);
            let mut place = 0;
            for call in &calls {
                let end = place + call.len();
                if let Call::Start { .. } = call {
                    let mut desk = desk.clone();
                    desk.refuses(call, end - 1, 7, &name);
                    assert_eq!(desk.writer, [0; 64], "{name}");
                } else {
                    desk.refuses(call, end - 1, 7, &name);
                }
                let more = random.below(2) * random.below(20);
                desk.passes(call, end + more, &name);
                assert_eq!(desk.place(), end, "{name}");
                place = end;
            }
            desk.assert_holds(&book, &name);
        }
    }
}

/// Books of some hundred units, with unit numbers of more than a byte.
#[test]
fn some_hundred_units() {
    let mut random = Random::new(SEED + 4);
    for suite in SUITES {
        let mut book = Book::random(&mut random, suite);
        for _ in 0..300 {
            let (s, t) = (1 + random.below(12), random.below(12));
            book.units.push(unit(&mut random, s, t));
        }
        let name = format!("seed {:X}", SEED + 4);
        let desk = written(&mut random, &book, 100, &name);
        assert_eq!(desk.value().units, 300);
    }
}

/// Every length of the source from 1 to 70 with every length of the target from 0 to 70.
#[test]
fn every_short_length() {
    let mut random = Random::new(SEED + 5);
    let book = Book::random(&mut random, (1, 6));
    let mut desk = Desk::new(&mut random, 200);
    desk.passes(&Call::start(&book), 200, "");
    let name = format!("seed {:X}", SEED + 5);
    for s in 1..=70 {
        for t in 0..=70 {
            let mut desk = desk.clone();
            let unit = unit(&mut random, s, t);
            desk.passes(&Call::Add(unit), 200, &name);
            let calls = 3 + (2 + s as u64 + t as u64).div_ceil(16);
            assert_eq!(desk.place(), 16 + 35 + s + t, "{name}");
            assert_eq!(desk.value().calls, calls, "{name}");
        }
    }
}

/// Long segments, up to the longest, known value 11 among them.
#[test]
fn long_segments() {
    let mut random = Random::new(SEED + 6);
    for suite in SUITES {
        let name = format!("suite {suite:?}, seed {:X}", SEED + 6);
        let mut book = Book::random(&mut random, suite);
        for (s, t) in [
            (4_096, 4_096),
            (4_096, 0),
            (1, 4_096),
            (255, 256),
            (256, 255),
            (4_095, 1),
        ] {
            book.units.push(unit(&mut random, s, t));
        }
        for _ in 0..4 {
            let (s, t) = (1 + random.below(4_096), random.below(4_097));
            book.units.push(unit(&mut random, s, t));
        }
        written(&mut random, &book, 9_000, &name);
    }
}

/// Book numbers at the ends of their range.
#[test]
fn book_numbers() {
    let mut random = Random::new(SEED + 7);
    for suite in SUITES {
        for number in [0, 1, 0xFF, 0x0102_0304_0506_0708, 1 << 63, u64::MAX] {
            let mut book = Book::random(&mut random, suite);
            book.number = number;
            book.units.push(unit(&mut random, 20, 3));
            written(&mut random, &book, 5, &format!("book {number}"));
        }
    }
}

/// How often each answer was given, by the refusal's number; 0 stands for none.
type Counts = [usize; 17];

/// One list of calls on one desk: a start, some forty calls, and what is left at last.
fn one_list(random: &mut Random, suite: (u8, u8), counts: &mut Counts, name: &str) {
    let len = [16, 60, 400, 3_000, 30_000][random.below(5)];
    let mut book = Book::random(random, suite);
    let mut desk = Desk::new(random, len);
    desk.passes(&Call::start(&book), len, name);
    for _ in 0..40 {
        let (s, t) = match random.below(12) {
            0 => (1 + random.below(4_096), random.below(4_097)),
            _ => (1 + random.below(40), random.below(40)),
        };
        let mut unit = unit(random, s, t);
        let place = desk.place();
        let (call, lent) = match random.below(24) {
            // just enough, and one byte too few, as far as the buffer goes
            0 => (Call::Add(unit), place + 35 + s + t),
            1 => (Call::Add(unit), place + 34 + s + t),
            2 => (Call::Close, place + 25),
            // a buffer that ends before the place, and one that ends there
            3 => (Call::Add(unit), random.below(place)),
            4 => (Call::Close, random.below(place)),
            5 => (Call::Add(unit), place),
            6 => {
                unit.to = unit.from;
                (Call::Add(unit), len)
            }
            7 => {
                unit.from[random.below(2)] = [b'E', b'`', b'{', 0, 0xE5][random.below(5)];
                if random.below(3) == 0 {
                    unit.to = unit.from;
                }
                (Call::Add(unit), len)
            }
            8 => {
                unit.source.clear();
                (Call::Add(unit), len)
            }
            9 => {
                unit.source.resize(4_097 + random.below(9), 1);
                (Call::Add(unit), len)
            }
            10 => {
                unit.target.resize(4_097 + random.below(9), 1);
                (Call::Add(unit), len)
            }
            11 if random.below(4) == 0 => (Call::Close, len),
            12 if random.below(4) == 0 => {
                book = Book::random(random, suite);
                (Call::start(&book), len)
            }
            _ => (Call::Add(unit), len),
        };
        let answer = desk.call(&call, lent.min(len), name);
        if let (Call::Add(unit), Ok(())) = (call, answer) {
            book.units.push(unit);
        }
        counts[answer.err().unwrap_or(0) as usize] += 1;
    }
    desk.assert_holds(&book, name);

    // closed, and then no more
    desk.buffer.resize(len + 26, 0x7E);
    let len = len + 26;
    let answer = desk.call(&Call::Close, len, name);
    assert!([Ok(()), Err(10)].contains(&answer), "{name}");
    desk.assert_holds(&book, name);
    desk.refuses(&Call::Close, len, 10, name);
    desk.refuses(&Call::Add(unit(random, 1, 0)), len, 10, name);
    // a refused start leaves a writer that nothing is done with
    let start = Call::Start {
        suite,
        key: vec![1; 15],
        number: 2,
    };
    desk.refuses(&start, len, 2, name);
    assert_eq!(desk.writer, [0; 64], "{name}");
    desk.refuses(&Call::Close, len, 9, name);
    desk.refuses(&Call::Add(unit(random, 1, 0)), len, 9, name);
}

/// Random lists of calls, refused ones among them.
#[test]
fn lists_of_calls() {
    let mut random = Random::new(SEED + 8);
    let mut counts = [0; 17];
    for suite in SUITES {
        for list in 0..60 {
            let name = format!("list {list}, seed {:X}", SEED + 8);
            one_list(&mut random, suite, &mut counts, &name);
        }
    }
    for number in [0, 7, 9, 10, 11, 12] {
        assert!(counts[number] > 100, "{counts:?}");
    }
    assert_eq!(counts.iter().sum::<usize>(), 8 * 60 * 40);
}
