//! Any 64 bytes as a writer: each is answered as the writer with these fields.

mod common;

use common::writing::{unit, Call, Desk};
use reference::cipher::SUITES;
use reference::random::Random;
use reference::writer::Writer;
use sealed_book::raw;

const SEED: u64 = 0x5742_5954;

/// The length of the buffer.
const LEN: usize = 200;

/// A writer such as calls leave.
fn writer(random: &mut Random) -> Writer {
    let (cipher, steps) = random.one_of(&SUITES);
    Writer {
        cipher,
        steps,
        key: random.bytes(),
        number: random.number(),
        place: 95,
        units: 2,
        calls: 11,
        closed: false,
    }
}

/// An add that fits behind the place of such a writer, and a close.
fn both_calls(random: &mut Random) -> [Call; 2] {
    let (s, t) = (1 + random.below(30), random.below(30));
    [Call::Add(unit(random, s, t)), Call::Close]
}

/// The three numbers of a writer are read from its bytes, whatever these are.
fn assert_numbers(bytes: &raw::Bytes) {
    let writer = Writer::decoded(bytes);
    assert_eq!(raw::place(bytes), writer.place);
    assert_eq!(raw::units(bytes), writer.units);
    assert_eq!(raw::calls(bytes), writer.calls);
}

/// Whether all bytes that are not used are 0.
fn unused_are_zero(bytes: &raw::Bytes) -> bool {
    [&bytes[3..8], &bytes[56..]].concat() == [0; 13]
}

#[test]
fn random_bytes() {
    let mut random = Random::new(SEED);
    let name = format!("seed {SEED:X}");
    for _ in 0..2_000 {
        let desk = Desk::new(&mut random, LEN);
        assert_numbers(&desk.writer);
        for call in both_calls(&mut random) {
            desk.clone().refuses(&call, LEN, 9, &name);
        }
        // the same with a suite that is listed
        let mut desk = desk;
        (desk.writer[0], desk.writer[1]) = random.one_of(&SUITES);
        for call in both_calls(&mut random) {
            desk.clone().refuses(&call, LEN, 9, &name);
        }
    }
}

#[test]
fn equal_bytes() {
    let mut random = Random::new(SEED + 1);
    for byte in 0..=255 {
        let mut desk = Desk::new(&mut random, LEN);
        desk.writer = [byte; 64];
        assert_numbers(&desk.writer);
        for call in both_calls(&mut random) {
            desk.refuses(&call, LEN, 9, "equal bytes");
        }
    }
}

/// Each bit of a writer that calls have left is changed.
#[test]
fn every_bit() {
    let mut random = Random::new(SEED + 2);
    let (mut passed, mut invalid, mut closed) = (0, 0, 0);
    for bit in 0..512 {
        let writer = Writer {
            cipher: 1,
            steps: 10,
            ..writer(&mut random)
        };
        let mut desk = Desk::with(&mut random, writer, LEN);
        desk.writer[bit / 8] ^= 1 << (bit % 8);
        assert_numbers(&desk.writer);
        for call in both_calls(&mut random) {
            let mut desk = desk.clone();
            match desk.call(&call, LEN, &format!("bit {bit}")) {
                Ok(()) => {
                    assert!(unused_are_zero(&desk.writer), "bit {bit}");
                    passed += 1;
                }
                Err(9) => invalid += 1,
                Err(10) => closed += 1,
                // a place further on, from which there is no room
                Err(number) => assert_eq!((number, bit / 8), (7, 39), "bit {bit}"),
            }
        }
    }
    assert_eq!(closed, 2 * 8);
    assert!(passed > 2 * 8 * (8 + 16 + 13), "{passed}");
    assert!(invalid > 2 * 8 * (6 + 6 + 6), "{invalid}");
}

/// Numbers about the limits of refusal 9 and at the ends of 64 bits, in all combinations.
#[test]
fn strange_numbers() {
    let mut random = Random::new(SEED + 3);
    let name = format!("seed {:X}", SEED + 3);
    let len = LEN as u64;
    let mut counts = [0; 14];
    for place in [
        0,
        15,
        16,
        17,
        100,
        len - 36,
        len - 35,
        len - 26,
        len - 25,
        len - 1,
        len,
        len + 1,
        (1 << 16) + 16,
        (1 << 32) + 16,
        1 << 63,
        u64::MAX - 32,
        u64::MAX - 15,
        u64::MAX,
    ] {
        for units in [
            0,
            1,
            255,
            256,
            65_535,
            65_536,
            16_777_214,
            16_777_215,
            16_777_216,
            16_777_217,
            (1 << 32) - 1,
            1 << 32,
            (1 << 54) - 1,
            1 << 54,
            u64::MAX - 1,
            u64::MAX,
        ] {
            let most = units.wrapping_add(1).wrapping_mul(1_024);
            for calls in [
                0,
                most.wrapping_sub(1),
                most,
                most.wrapping_add(1),
                1 << 32,
                1 << 34,
                (1 << 34) + 1,
                u64::MAX,
            ] {
                let writer = Writer {
                    number: random.one_of(&[0, 1, 1 << 63, u64::MAX]),
                    place,
                    units,
                    calls,
                    ..writer(&mut random)
                };
                let desk = Desk::with(&mut random, writer, LEN);
                assert_numbers(&desk.writer);
                for call in both_calls(&mut random) {
                    let mut desk = desk.clone();
                    let answer = desk.call(&call, LEN, &name);
                    counts[answer.err().unwrap_or(0) as usize] += 1;
                }
            }
        }
    }
    for number in [0, 7, 9, 13] {
        assert!(counts[number] > 30, "{counts:?}");
    }
}

/// Writers that calls have left, with some of their bytes changed to strange ones.
#[test]
fn mutations() {
    let mut random = Random::new(SEED + 4);
    let name = format!("seed {:X}", SEED + 4);
    let mut counts = [0; 14];
    let (mut unused, mut at_the_bound) = (0, 0);
    for _ in 0..20_000 {
        let mut writer = writer(&mut random);
        if random.below(3) == 0 {
            writer.place = 10 + random.below(LEN) as u64;
        }
        if random.below(3) == 0 {
            let limit = [16_777_213, 16_777_214, 16_777_215, 16_777_216];
            let units = [
                0,
                1_000,
                65_535,
                65_536,
                random.one_of(&limit),
                random.one_of(&limit),
            ];
            writer.units = random.one_of(&units);
        }
        let most = 1_024 * (writer.units + 1);
        if random.below(3) == 0 {
            writer.calls = random.one_of(&[0, most - 1, most, most + 1, u64::MAX]);
        }
        let mut desk = Desk::with(&mut random, writer, LEN);
        if random.below(4) == 0 {
            desk.writer[2] = random.below(256) as u8;
        }
        if random.below(2) == 0 {
            random.fill(&mut desk.writer[3..8]);
            random.fill(&mut desk.writer[56..]);
        }
        if random.below(8) == 0 {
            let at = random.below(64);
            desk.writer[at] = random.below(256) as u8;
        }
        let before = desk.clone();
        for call in both_calls(&mut random) {
            let mut desk = before.clone();
            let answer = desk.call(&call, LEN, &name);
            counts[answer.err().unwrap_or(0) as usize] += 1;
            if answer.is_err() {
                assert_eq!(desk.writer, before.writer, "{name}");
                assert_eq!(desk.buffer, before.buffer, "{name}");
                continue;
            }
            assert!(unused_are_zero(&desk.writer), "{name}");
            unused += usize::from(!unused_are_zero(&before.writer));
            at_the_bound += usize::from(writer.calls == most);
        }
    }
    for number in [0, 7, 9, 10, 13] {
        assert!(counts[number] > 50, "{counts:?}");
    }
    assert!(unused > 500 && at_the_bound > 50);
}

/// Byte 2: 1 is open, anything else closed; the close leaves 0.
#[test]
fn open_or_closed() {
    let mut random = Random::new(SEED + 5);
    for byte in 0..=255 {
        let writer = writer(&mut random);
        let mut desk = Desk::with(&mut random, writer, LEN);
        desk.writer[2] = byte;
        let [add, close] = both_calls(&mut random);
        if byte == 1 {
            desk.passes(&add, LEN, "open");
            assert_eq!(desk.writer[2], 1);
            desk.passes(&close, LEN, "open");
            assert_eq!(desk.writer[2], 0);
        } else {
            desk.refuses(&add, LEN, 10, "closed");
            desk.refuses(&close, LEN, 10, "closed");
            assert_eq!(desk.writer[2], byte);
        }
    }
}

/// A close from the highest call total that is allowed leaves one that is not.
#[test]
fn call_total_past_the_limit_after_a_close() {
    let mut random = Random::new(SEED + 6);
    for units in [0, 1, 65_535, 65_536, 16_777_215] {
        let writer = Writer {
            units,
            calls: 1_024 * (units + 1),
            ..writer(&mut random)
        };
        let mut desk = Desk::with(&mut random, writer, LEN);
        desk.passes(&Call::Close, LEN, "at the limit");
        assert_eq!(desk.value().calls, 1_024 * (units + 1) + 3);
        for call in both_calls(&mut random) {
            desk.refuses(&call, LEN, 9, "past the limit");
        }
    }
}
