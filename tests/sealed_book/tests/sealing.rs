//! Sealing and opening against the reference: nonces, headers and texts of all lengths, outputs that
//! are just long enough, longer and too short.

mod common;

use common::sealing::Given;
use reference::cipher::SUITES;
use reference::random::Random;

const SEED: u64 = 0x5345_414C;

/// Every header and every text length from 0 to 100.
#[test]
fn every_short_length() {
    let mut random = Random::new(SEED);
    for (suite, n) in [((1, 6), 15), ((1, 10), 12), ((2, 12), 13)] {
        let given = Given::random(&mut random, suite, n, 100, 100);
        for a in 0..=100 {
            for m in 0..=100 {
                let mut given = given.clone();
                given.header.truncate(a);
                given.body.truncate(m);
                given.there_and_back(&format!("seed {SEED:X}"));
            }
        }
    }
}

/// Every suite with every nonce length, at lengths about the borders of blocks and at random ones.
#[test]
fn every_nonce_length() {
    let mut random = Random::new(SEED + 1);
    let name = format!("seed {:X}", SEED + 1);
    for suite in SUITES {
        for n in 1..=15 {
            for (a, m) in [(0, 0), (0, 16), (16, 0), (1, 15), (16, 32), (33, 17)] {
                Given::random(&mut random, suite, n, a, m).there_and_back(&name);
            }
            for _ in 0..4 {
                let (a, m) = (random.below(200), random.below(200));
                Given::random(&mut random, suite, n, a, m).there_and_back(&name);
            }
        }
    }
}

/// Nonces of 0, 16 and 17 bytes, and much longer ones.
#[test]
fn other_nonce_lengths_are_refused() {
    let mut random = Random::new(SEED + 2);
    for suite in SUITES {
        for n in [0, 16, 17, 18, 31, 32, 255, 256, 257, 271] {
            for (a, m) in [(0, 0), (0, 20), (4, 8), (25, 40)] {
                let given = Given::random(&mut random, suite, n, a, m);
                given.seal_gives(m + 16, &Err(3), "");
                given.open_gives(m, &Err(3), "");
            }
        }
    }
}

/// Some thousands of bytes, with block numbers of more than a byte, in every suite.
#[test]
fn some_thousand_bytes() {
    let mut random = Random::new(SEED + 3);
    let name = format!("seed {:X}", SEED + 3);
    for suite in SUITES {
        for case in 0..6 {
            let n = 1 + random.below(14);
            let (a, m) = match case {
                0 => (16 * 260, 16 * 260),
                1 => (16 * 257 + 1, 5),
                _ => (random.below(5_000), random.below(9_000)),
            };
            Given::random(&mut random, suite, n, a, m).there_and_back(&name);
        }
    }
}

/// The blocks of zeros and of ones, which a slip in a checksum or a length may hide in.
#[test]
fn equal_bytes() {
    for suite in [(1, 10), (2, 12)] {
        for byte in [0x00, 0x80, 0xFF] {
            for m in 0..=64 {
                let given = Given {
                    suite,
                    key: vec![byte; 16],
                    nonce: vec![byte; 12],
                    header: vec![byte; m],
                    body: vec![byte; m],
                };
                given.there_and_back(&format!("bytes {byte:02X}"));
            }
        }
    }
}

/// Random bytes are opened as by the reference, which is to say refused.
#[test]
fn random_sealed_bytes() {
    let mut random = Random::new(SEED + 4);
    let mut refused = [0; 9];
    for suite in SUITES {
        for _ in 0..100 {
            let (n, a, len) = (1 + random.below(15), random.below(60), random.below(80));
            let given = Given::random(&mut random, suite, n, a, len);
            let out_len = random.below(80);
            let answer = given.open_answer(out_len);
            given.open_gives(out_len, &answer, &format!("seed {:X}", SEED + 4));
            refused[answer.unwrap_err() as usize] += 1;
        }
    }
    assert!(
        [5, 7, 8].iter().all(|&number| refused[number] > 50),
        "{refused:?}"
    );
    assert_eq!(refused[5] + refused[7] + refused[8], 800);
}
