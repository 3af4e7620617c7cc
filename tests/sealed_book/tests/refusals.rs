//! Refusals of sealing and opening: each cause, and of several causes the first.

mod common;

use common::causes::{first_is_given, sets, CASES};
use common::sealing::Given;
use reference::cipher::listed;
use reference::random::Random;

const SEED: u64 = 0x5245_4655;

/// The causes of each call in the order in which they are given.
const SEAL: [u32; 6] = [1, 2, 3, 4, 6, 7];
const OPEN: [u32; 8] = [1, 2, 3, 4, 5, 6, 7, 8];

/// Causes 1 to 4, as far as they are in the set. The header is over the limit of a nonce of 15 bytes
/// and more; the nonce that is given where cause 3 is not in the set has 15.
fn spoil(random: &mut Random, given: &mut Given, set: &[u32]) {
    if set.contains(&1) {
        given.suite = random.one_of(&[(0, 10), (1, 4), (1, 7), (1, 14), (2, 6), (3, 10)]);
    }
    if set.contains(&2) {
        let len = random.one_of(&[0, 1, 15, 17, 32]);
        given.key = random.some_bytes(len);
    }
    if set.contains(&3) {
        let len = random.one_of(&[0, 16, 17]);
        given.nonce = random.some_bytes(len);
    }
    if set.contains(&4) {
        let more = random.below(40);
        given.header = random.some_bytes(1_025 + more);
    }
}

#[test]
fn seal_gives_the_first_cause() {
    let refused = first_is_given(SEED, &sets(&SEAL), CASES, |random, set, name| {
        let (a, m) = (random.below(40), 1 + random.below(40));
        let suite = random.one_of(&[(1, 6), (2, 14)]);
        let mut given = Given::random(random, suite, 15, a, m);
        spoil(random, &mut given, set);
        if set.contains(&6) {
            let more = random.below(40);
            given.body = random.some_bytes(2_049 + more);
        }
        let len = given.body.len();
        let out_len = if set.contains(&7) {
            random.one_of(&[0, 15, len - 1, len, len + 15])
        } else {
            len + 16 + random.below(2)
        };
        let answer = given.seal_answer(out_len);
        given.seal_gives(out_len, &answer, name);
        answer
    });
    // how many sets begin with each cause
    assert_eq!(
        refused,
        [1, 32, 16, 8, 4, 0, 2, 1, 0, 0, 0, 0, 0, 0, 0, 0, 0].map(|sets| sets * CASES)
    );
}

#[test]
fn open_gives_the_first_cause() {
    let mut sets = sets(&OPEN);
    // too short to be sealed bytes, and a text too long
    sets.retain(|set| !(set.contains(&5) && set.contains(&6)));
    let refused = first_is_given(SEED + 1, &sets, CASES, |random, set, name| {
        let (a, m) = (random.below(40), 1 + random.below(40));
        let suite = random.one_of(&[(1, 6), (2, 14)]);
        let given = Given::random(random, suite, 15, a, m);
        let (sealed, _) = given.seal_answer(m + 16).unwrap();
        let mut given = given.with_body(sealed);
        if set.contains(&8) {
            let at = m + random.below(16);
            given.body[at] ^= 1 << random.below(8);
        }
        if set.contains(&5) {
            given.body.truncate(random.one_of(&[0, 1, 15]));
        }
        if set.contains(&6) {
            let more = random.below(40);
            given.body = random.some_bytes(2_065 + more);
        }
        spoil(random, &mut given, set);
        let len = given.body.len().saturating_sub(16);
        let out_len = if set.contains(&7) {
            random.one_of(&[0, len / 2, len.saturating_sub(1)])
        } else {
            len + random.below(20)
        };
        let answer = given.open_answer(out_len);
        given.open_gives(out_len, &answer, name);
        answer
    });
    // how many sets begin with each cause
    assert_eq!(
        refused,
        [1, 96, 48, 24, 12, 4, 4, 2, 1, 0, 0, 0, 0, 0, 0, 0, 0].map(|sets| sets * CASES)
    );
}

/// With no nonce at all, a header and a text over every limit.
#[test]
fn empty_nonce_and_long_header_and_text() {
    let given = Given {
        suite: (1, 6),
        key: vec![1; 16],
        nonce: Vec::new(),
        header: vec![2; 16_777_217],
        body: vec![3; 16_777_233],
    };
    given.seal_gives(0, &Err(3), "");
    given.open_gives(0, &Err(3), "");
}

/// All 65,536 pairs of a cipher's byte and a steps byte.
#[test]
fn every_suite() {
    let mut random = Random::new(SEED + 2);
    let mut accepted = 0;
    for cipher in 0..=255 {
        for steps in 0..=255 {
            let suite = (cipher, steps);
            let given = Given::random(&mut random, suite, 12, 3, 5);
            if listed(cipher, steps) {
                given.there_and_back("a listed suite");
                accepted += 1;
            } else {
                given.seal_gives(21, &Err(1), "");
                given.with_body(vec![0; 21]).open_gives(5, &Err(1), "");
            }
        }
    }
    assert_eq!(accepted, 8);
}

#[test]
fn every_key_length() {
    let mut random = Random::new(SEED + 3);
    for len in 0..=300 {
        let mut given = Given::random(&mut random, (2, 12), 12, 20, 20);
        given.key = random.some_bytes(len);
        if len == 16 {
            given.there_and_back("a key of 16 bytes");
        } else {
            given.seal_gives(36, &Err(2), "");
            given.open_gives(4, &Err(2), "");
        }
    }
}
