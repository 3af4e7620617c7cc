//! Block numbers past one and two bytes, under every nonce length that allows them, and up to the last
//! of the longest text.

mod common;

use common::sealing::Given;
use reference::cipher::{encipher, SUITES};
use reference::random::Random;
use reference::sealing::{header_limit, text_limit, tweak, Place};

const SEED: u64 = 0x424C_4E4F;

/// Blocks of a header and of a text under a nonce of n bytes: as many as the limits allow, but at
/// most 65,606.
fn blocks(n: usize) -> (usize, usize) {
    let past = 65_536 + 70;
    (past.min(header_limit(n) / 16), past.min(text_limit(n) / 16))
}

/// Every block of header and text under the tweak of its number.
#[test]
fn every_nonce_length() {
    let mut random = Random::new(SEED);
    for n in 1..=15 {
        let (header, text) = blocks(n);
        let last = [16, 5][n % 2];
        let (a, m) = (16 * header - 16 + last, 16 * text - 16 + last);
        let given = Given::random(&mut random, SUITES[n % 8], n, a, m);
        let (sealed, calls) = given.sealed_by_calls();
        assert_eq!(calls, header + text + 1);
        let name = format!("{header} and {text} blocks");
        given.seal_gives(m + 16, &Ok((sealed.clone(), calls)), &name);
        let body = given.body.clone();
        given.with_body(sealed).open_gives(m, &Ok(body), &name);
    }
}

/// Single blocks of the longest text by the second implementation's own cipher, up to number
/// 1,048,574; the last block, 1,048,575, has a special tweak.
#[test]
fn single_blocks_of_the_longest_text() {
    let mut random = Random::new(SEED + 1);
    let (cipher, steps) = (2, 8);
    let m = 16 * 1_048_576;
    let given = Given::random(&mut random, (cipher, steps), 13, 0, m);
    let sealed = given.sealed();
    let key = given.key[..].try_into().unwrap();
    for number in [
        0, 1, 63, 64, 255, 256, 65_535, 65_536, 131_071, 131_072, 524_288, 1_048_573, 1_048_574,
    ] {
        let at = 16 * number;
        let block = given.body[at..at + 16].try_into().unwrap();
        let tweak = tweak(&given.nonce, Place::Text(number));
        let expected = encipher(cipher, steps, key, &tweak, block).unwrap();
        assert_eq!(sealed[at..at + 16], expected, "block {number}");
    }
}
