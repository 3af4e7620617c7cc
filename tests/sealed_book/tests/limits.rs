//! The limits of header and text for each nonce length, met and passed by one.

mod common;

use common::sealing::Given;
use reference::cipher::SUITES;
use reference::random::Random;

const SEED: u64 = 0x4C49_4D54;

/// The limit of both at nonces of up to 13 bytes.
const MOST: usize = 16_777_216;

/// One byte over the header's limit is refused with 4, one over the text's with 6.
fn passed_by_one(random: &mut Random, suite: (u8, u8), n: usize, header: usize, text: usize) {
    let given = Given::random(random, suite, n, header + 1, 0);
    given.seal_gives(16, &Err(4), "header over its limit");
    let given = given.with_body(vec![0; 16]);
    given.open_gives(0, &Err(4), "header over its limit");

    let given = Given::random(random, suite, n, 0, text + 1);
    given.seal_gives(text + 17, &Err(6), "text over its limit");
    let given = given.with_body(vec![0; text + 17]);
    given.open_gives(text + 1, &Err(6), "text over its limit");
}

#[test]
fn nonce_of_15_bytes() {
    let mut random = Random::new(SEED);
    for suite in SUITES {
        for (a, m) in [(1_024, 2_048), (1_009, 2_033), (1_024, 0), (0, 2_048)] {
            Given::random(&mut random, suite, 15, a, m).there_and_back("at the limits");
        }
        passed_by_one(&mut random, suite, 15, 1_024, 2_048);
    }
}

#[test]
fn nonce_of_14_bytes() {
    let mut random = Random::new(SEED + 1);
    for suite in [(1, 10), (2, 12)] {
        let (a, m) = (262_144, 524_288);
        Given::random(&mut random, suite, 14, a, m).there_and_back("at the limits");
        passed_by_one(&mut random, suite, 14, a, m);
    }
}

#[test]
fn shorter_nonces() {
    let mut random = Random::new(SEED + 2);
    for n in 1..=13 {
        passed_by_one(&mut random, SUITES[n % 8], n, MOST, MOST);
    }
}

/// Header and text at the limit; the call list is enciphered by the library's own blocks, since the
/// reference is slow.
#[test]
fn longest_header_and_text() {
    let mut random = Random::new(SEED + 3);
    for (n, a, m) in [(13, 25, MOST), (1, MOST, 25)] {
        let given = Given::random(&mut random, (1, 6), n, a, m);
        let (sealed, calls) = given.sealed_by_calls();
        assert_eq!(calls, MOST / 16 + 2 + 1);

        given.seal_gives(m + 16, &Ok((sealed.clone(), calls)), "at the limit");
        given.seal_gives(m + 15, &Err(7), "at the limit");
        let mut damaged = given.with_body(sealed);
        damaged.open_gives(m, &Ok(given.body), "at the limit");
        damaged.body[m / 2] ^= 1;
        damaged.open_gives(m, &Err(8), "at the limit");
    }
}
