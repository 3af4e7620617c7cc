//! Refusals of the writer: each cause, and of several causes the first; buffer and writer stay.

mod common;

use common::causes::{first_is_given, sets, CASES};
use common::writing::{unit, Call, Desk};
use common::{codes_with_each_byte, CODES_OF_LETTERS, UNLISTED};
use reference::book::Unit;
use reference::cipher::{listed, SUITES};
use reference::random::Random;
use reference::writer::Writer;

const SEED: u64 = 0x5752_4546;

/// The causes of each call in the order in which they are given.
const START: [u32; 3] = [1, 2, 7];
const ADD: [u32; 6] = [9, 10, 11, 12, 13, 7];
const CLOSE: [u32; 3] = [9, 10, 7];

/// An open writer that is not refused, at this place.
fn writer(random: &mut Random, place: usize) -> Writer {
    let (cipher, steps) = random.one_of(&SUITES);
    let units = random.one_of(&[0, 1, 255, 256, 65_535, 65_536, 16_777_214]);
    Writer {
        cipher,
        steps,
        key: random.bytes(),
        number: random.number(),
        place: place as u64,
        units,
        calls: random.one_of(&[0, 7, 1_024 * (units + 1)]),
        closed: false,
    }
}

/// One of the causes of refusal 9, with so many bytes of the buffer lent.
fn spoil(random: &mut Random, writer: &mut Writer, len: usize) {
    match random.below(5) {
        0 => (writer.cipher, writer.steps) = random.one_of(&UNLISTED),
        1 => writer.place = random.one_of(&[0, 1, 15]),
        2 => writer.place = random.one_of(&[len as u64 + 1, len as u64 + 40, u64::MAX]),
        3 => writer.units = random.one_of(&[16_777_216, 16_777_217, 1 << 32, u64::MAX]),
        _ => {
            let over = 1_024 * (writer.units + 1) + 1;
            writer.calls = random.one_of(&[over, over + 1_023, 1 << 35, u64::MAX]);
        }
    }
}

/// Causes 9 and 10, as far as they are in the set, and the desk for the call.
fn spoiled(random: &mut Random, mut writer: Writer, set: &[u32], len: usize) -> Desk {
    if set.contains(&9) {
        spoil(random, &mut writer, len);
    }
    let mut desk = Desk::with(random, writer, len + 30);
    if set.contains(&10) {
        desk.writer[2] = random.one_of(&[0, 2, 3, 128, 255]);
    }
    // what is not used has any content
    random.fill(&mut desk.writer[3..8]);
    random.fill(&mut desk.writer[56..]);
    desk
}

#[test]
fn start_gives_the_first_cause() {
    first_is_given(SEED, &sets(&START), CASES, |random, set, name| {
        let key_len = match set.contains(&2) {
            true => random.one_of(&[0, 1, 15, 17, 32]),
            false => 16,
        };
        let call = Call::Start {
            suite: match set.contains(&1) {
                true => random.one_of(&UNLISTED),
                false => random.one_of(&SUITES),
            },
            key: random.some_bytes(key_len),
            number: random.number(),
        };
        let len = match set.contains(&7) {
            true => random.one_of(&[0, 1, 15]),
            false => random.one_of(&[16, 17, 100]),
        };
        let mut desk = Desk::new(random, 120);
        let answer = desk.call(&call, len, name);
        if answer.is_err() {
            assert_eq!(desk.writer, [0; 64], "{name}");
        }
        answer
    });
}

/// Two codes of which one has a byte that is no letter, or each, in codes that are the same.
fn bad_languages(random: &mut Random, unit: &mut Unit) {
    let byte = random.one_of(&[0, b' ', b'0', b'A', b'Z', b'`', b'{', 0xE1]);
    let at = random.below(2);
    match random.below(4) {
        0 => {
            unit.from[at] = byte;
            unit.to = unit.from;
        }
        1 => unit.to[at] = byte,
        _ => unit.from[at] = byte,
    }
}

/// Segments of which one, or each, has a length that is out of range.
fn bad_lengths(random: &mut Random) -> (usize, usize) {
    let (s, t) = (1 + random.below(40), random.below(40));
    let over = 4_097 + random.below(40);
    random.one_of(&[
        (0, 0),
        (0, t),
        (over, t),
        (s, over),
        (0, over),
        (over, over),
    ])
}

#[test]
fn add_gives_the_first_cause() {
    let refused = first_is_given(SEED + 1, &sets(&ADD), CASES, |random, set, name| {
        let (s, t) = match set.contains(&12) {
            true => bad_lengths(random),
            false => (1 + random.below(40), random.below(40)),
        };
        let mut unit = unit(random, s, t);
        if set.contains(&11) {
            bad_languages(random, &mut unit);
        }
        let place = 16 + random.below(100);
        let mut writer = writer(random, place);
        if set.contains(&13) {
            writer.units = 16_777_215;
        }
        let len = match set.contains(&7) {
            true => place + random.one_of(&[0, 1, 34, 34 + s + t]),
            false => place + 35 + s + t + random.below(2),
        };
        let mut desk = spoiled(random, writer, set, len);
        desk.call(&Call::Add(unit), len, name)
    });
    // how many sets begin with each cause
    assert_eq!(
        refused,
        [1, 0, 0, 0, 0, 0, 0, 1, 0, 32, 16, 8, 4, 2, 0, 0, 0].map(|sets| sets * CASES)
    );
}

#[test]
fn close_gives_the_first_cause() {
    first_is_given(SEED + 2, &sets(&CLOSE), 5 * CASES, |random, set, name| {
        let place = 16 + random.below(100);
        let mut writer = writer(random, place);
        if random.below(2) == 0 {
            writer.units = 16_777_215;
        }
        let len = match set.contains(&7) {
            true => place + random.one_of(&[0, 1, 16, 24, 25]),
            false => place + 26 + random.below(2),
        };
        let mut desk = spoiled(random, writer, set, len);
        desk.call(&Call::Close, len, name)
    });
}

/// All 65,536 pairs of a cipher's byte and a steps byte, at the start and in a writer.
#[test]
fn every_suite() {
    let mut random = Random::new(SEED + 3);
    let mut accepted = 0;
    for cipher in 0..=255 {
        for steps in 0..=255 {
            let start = Call::Start {
                suite: (cipher, steps),
                key: random.some_bytes(16),
                number: random.number(),
            };
            let mut desk = Desk::new(&mut random, 60);
            let writer = Writer {
                cipher,
                steps,
                ..writer(&mut random, 20)
            };
            let mut other = Desk::with(&mut random, writer, 60);
            let add = Call::Add(unit(&mut random, 2, 3));
            if listed(cipher, steps) {
                desk.passes(&start, 60, "a listed suite");
                other.clone().passes(&add, 60, "a listed suite");
                other.passes(&Call::Close, 60, "a listed suite");
                accepted += 1;
            } else {
                desk.refuses(&start, 60, 1, "");
                other.refuses(&add, 60, 9, "");
                other.refuses(&Call::Close, 60, 9, "");
            }
        }
    }
    assert_eq!(accepted, 8);
}

#[test]
fn every_key_length() {
    let mut random = Random::new(SEED + 4);
    for len in 0..=300 {
        let start = Call::Start {
            suite: (2, 12),
            key: random.some_bytes(len),
            number: 7,
        };
        let mut desk = Desk::new(&mut random, 20);
        match len {
            16 => desk.passes(&start, 20, "a key of 16 bytes"),
            _ => desk.refuses(&start, 20, 2, ""),
        }
    }
}

/// Every byte at every place of the two codes: a letter is all that is asked for.
#[test]
fn every_byte_in_a_code() {
    let mut random = Random::new(SEED + 5);
    let (mut passed, mut equal) = (0, 0);
    for (byte, codes) in codes_with_each_byte() {
        let [f0, f1, t0, t1] = codes;
        let mut unit = unit(&mut random, 3, 4);
        (unit.from, unit.to) = ([f0, f1], [t0, t1]);
        let mut desk = Desk::new(&mut random, 100);
        desk.writer = writer(&mut random, 16).encoded();
        if byte.is_ascii_lowercase() {
            passed += 1;
            equal += usize::from(unit.from == unit.to);
            desk.passes(&Call::Add(unit), 100, "letters");
        } else {
            desk.refuses(&Call::Add(unit), 100, 11, "no letter");
        }
    }
    assert_eq!((passed, equal), CODES_OF_LETTERS);
}

/// Every code with itself, with its letters exchanged, and with one letter of it.
#[test]
fn every_code() {
    let mut random = Random::new(SEED + 6);
    for a in b'a'..=b'z' {
        for b in b'a'..=b'z' {
            let other = b'a' + (b - b'a' + 1) % 26;
            for to in [[a, b], [b, a], [a, other], [other, b]] {
                let mut unit = unit(&mut random, 1, 0);
                (unit.from, unit.to) = ([a, b], to);
                let mut desk = Desk::with(&mut random, writer(&mut Random::new(1), 16), 52);
                desk.passes(&Call::Add(unit), 52, "letters");
            }
        }
    }
}

/// Known value 11, and lengths that are in range but for a byte or two of theirs that is lost.
#[test]
fn segment_lengths() {
    let mut random = Random::new(SEED + 7);
    let lengths = [
        0, 1, 2, 4_095, 4_096, 4_097, 8_191, 8_192, 8_193, 65_535, 65_536, 65_537, 69_632, 69_633,
    ];
    for s in lengths {
        for t in lengths {
            let writer = writer(&mut random, 30);
            let mut desk = Desk::with(&mut random, writer, 70_000);
            let add = Call::Add(unit(&mut random, s, t));
            match (1..=4_096).contains(&s) && t <= 4_096 {
                true => desk.passes(&add, 70_000, ""),
                false => desk.refuses(&add, 70_000, 12, ""),
            }
        }
    }
}

/// Known value 10, and every length of the buffer at each call.
#[test]
fn every_buffer_length() {
    let mut random = Random::new(SEED + 8);
    for suite in SUITES {
        let start = Call::Start {
            suite,
            key: random.some_bytes(16),
            number: random.number(),
        };
        let mut desk = Desk::new(&mut random, 150);
        for len in 0..=15 {
            desk.refuses(&start, len, 7, "");
        }
        for len in 16..=150 {
            desk.passes(&start, len, "");
        }
        let (first, second) = (unit(&mut random, 10, 7), unit(&mut random, 1, 0));
        for (call, place) in [
            (Call::Add(first), 16),
            (Call::Add(second), 68),
            (Call::Close, 104),
        ] {
            assert_eq!(desk.place(), place);
            for len in 0..=150 {
                match len {
                    _ if len < place => desk.refuses(&call, len, 9, ""),
                    _ if len < place + call.len() => desk.refuses(&call, len, 7, ""),
                    _ => desk.clone().passes(&call, len, ""),
                }
            }
            desk.passes(&call, 150, "");
        }
        for len in 0..=150 {
            let number = if len < 130 { 9 } else { 10 };
            desk.refuses(&Call::Close, len, number, "closed");
        }
    }
}

/// The last unit that a book has room for, and the one after it.
#[test]
fn a_full_book() {
    let mut random = Random::new(SEED + 9);
    for suite in SUITES {
        let (cipher, steps) = suite;
        let writer = Writer {
            cipher,
            steps,
            units: 16_777_214,
            ..writer(&mut random, 16)
        };
        let mut desk = Desk::with(&mut random, writer, 300);
        let name = format!("suite {suite:?}");
        let last = unit(&mut random, 20, 20);
        desk.passes(&Call::Add(last), 300, &name);
        let head = [0x14, 0, 8, 0, 0xFF, 0xFF, 0xFE];
        assert_eq!(desk.buffer[16..23], head, "{name}");
        assert_eq!(desk.value().units, 16_777_215, "{name}");
        let more = unit(&mut random, 1, 0);
        desk.refuses(&Call::Add(more), 300, 13, &name);
        let place = desk.place();
        desk.passes(&Call::Close, 300, &name);
        let close = [0x21, 0, 4, 0, 0xFF, 0xFF, 0xFF, 0x12, 0, 16];
        assert_eq!(desk.buffer[place..place + 10], close, "{name}");
        assert_eq!(desk.value().units, 16_777_215, "{name}");
        assert!(desk.value().closed, "{name}");
    }
}
