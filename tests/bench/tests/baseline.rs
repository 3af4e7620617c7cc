//! The baseline in C against the vectors and the reference, so that what is measured is the cipher and
//! its sealing mode.

use bench::baseline;
use reference::cipher::{decipher, encipher, listed, SUITES};
use reference::random::Random;
use reference::sealing;
use reference::vectors::{cipher_vectors, open_vectors, seal_vectors};

const SEED: u64 = 0x4241_5345;

#[test]
fn cipher_vectors_hold() {
    let vectors = cipher_vectors();
    assert_eq!(vectors.len(), 80);
    for v in vectors {
        let mut block = v.block;
        assert!(baseline::encipher(
            v.cipher, v.steps, &v.key, &v.tweak, &mut block
        ));
        assert_eq!(block, v.enciphered, "line {}", v.line);
        assert!(baseline::decipher(
            v.cipher, v.steps, &v.key, &v.tweak, &mut block
        ));
        assert_eq!(block, v.block, "line {}", v.line);
    }
}

#[test]
fn blocks_are_done_as_by_the_reference() {
    let mut random = Random::new(SEED);
    for (cipher, steps) in SUITES {
        let key = random.bytes();
        let (tweaks, before): ([u8; 165], [u8; 165]) = (random.bytes(), random.bytes());
        let (mut there, mut back) = (before, before);
        assert!(baseline::encipher_blocks(
            cipher, steps, &key, &tweaks, &mut there
        ));
        assert!(baseline::decipher_blocks(
            cipher, steps, &key, &tweaks, &mut back
        ));
        for at in (0..160).step_by(16) {
            let tweak = tweaks[at..at + 16].try_into().unwrap();
            let block = before[at..at + 16].try_into().unwrap();
            let expected = encipher(cipher, steps, &key, tweak, block).unwrap();
            assert_eq!(there[at..at + 16], expected, "seed {SEED:X}");
            let expected = decipher(cipher, steps, &key, tweak, block).unwrap();
            assert_eq!(back[at..at + 16], expected, "seed {SEED:X}");
        }
        assert_eq!(
            (&there[160..], &back[160..]),
            (&before[160..], &before[160..])
        );
    }
}

#[test]
fn suites_are_those_of_the_reference() {
    let (key, tweak) = ([1; 16], [2; 16]);
    for cipher in 0..=255 {
        for steps in 0..=255 {
            let (mut there, mut back) = ([3; 16], [3; 16]);
            let expected = listed(cipher, steps);
            assert_eq!(
                baseline::encipher(cipher, steps, &key, &tweak, &mut there),
                expected
            );
            assert_eq!(
                baseline::decipher(cipher, steps, &key, &tweak, &mut back),
                expected
            );
            assert_eq!((there != [3; 16], back != [3; 16]), (expected, expected));
        }
    }
}

#[test]
fn seal_vectors_hold() {
    let vectors = seal_vectors();
    assert_eq!(vectors.len(), 197);
    for v in vectors {
        let (cipher, steps, len) = (v.cipher, v.steps, v.text.len());
        let mut out = vec![0x5A; len + 20];
        let answer = baseline::seal(
            cipher, steps, &v.key, &v.nonce, &v.header, &v.text, &mut out,
        );
        assert_eq!(answer, Ok(()), "line {}", v.line);
        assert_eq!(out, [v.sealed, vec![0x5A; 4]].concat(), "line {}", v.line);
    }
}

#[test]
fn open_vectors_hold() {
    let vectors = open_vectors();
    assert_eq!(vectors.len(), 144);
    for v in vectors {
        let (cipher, steps, len) = (v.cipher, v.steps, v.sealed.len());
        let mut out = vec![0x5A; len];
        let answer = baseline::open(
            cipher, steps, &v.key, &v.nonce, &v.header, &v.sealed, &mut out,
        );
        assert_eq!(
            answer.err(),
            v.answer.as_ref().err().copied(),
            "line {}",
            v.line
        );
        let mut expected = v.answer.unwrap_or_default();
        expected.resize(len, 0x5A);
        assert_eq!(out, expected, "line {}", v.line);
    }
}

/// Random suites, lengths and outputs, some of them refused.
#[test]
fn sealing_is_that_of_the_reference() {
    let mut random = Random::new(SEED + 1);
    let mut answers = [0; 9];
    for case in 0..4_000 {
        let name = format!("seed {:X}, case {case}", SEED + 1);
        let unlisted = random.below(20) == 0;
        let (cipher, steps) = if unlisted {
            (1, 14)
        } else {
            SUITES[random.below(8)]
        };
        let key = random.some_bytes(if case % 19 == 0 { 15 } else { 16 });
        let nonce = random.some_bytes(if case % 2 == 0 { 15 } else { case % 17 });
        let header = random.some_bytes(if case % 23 == 0 { 1_025 } else { case % 50 });
        let text = random.some_bytes(if case % 13 == 0 { 2_049 } else { case % 67 });

        let before = random.some_bytes(text.len() + 15 + case % 5);
        let mut out = before.clone();
        let expected = sealing::seal(cipher, steps, &key, &nonce, &header, &text, out.len());
        let answer = baseline::seal(cipher, steps, &key, &nonce, &header, &text, &mut out);
        assert_eq!(answer.err(), expected.as_ref().err().copied(), "{name}");
        answers[answer.err().unwrap_or(0) as usize] += 1;
        let result = expected.map_or(Vec::new(), |(sealed, _)| sealed);
        assert_eq!(out, [&result, &before[result.len()..]].concat(), "{name}");

        // what was sealed, or that with a bit changed, or anything
        let mut sealed = result;
        if sealed.is_empty() {
            let len = if case % 2 == 0 {
                text.len() + 16
            } else {
                case % 16
            };
            sealed = random.some_bytes(len);
        } else if random.below(2) == 0 {
            let at = random.below(sealed.len());
            sealed[at] ^= 1 << random.below(8);
        }
        let len = (sealed.len() + 4).saturating_sub(random.below(24));
        let before = random.some_bytes(len);
        let mut out = before.clone();
        let expected = sealing::open(cipher, steps, &key, &nonce, &header, &sealed, out.len());
        let answer = baseline::open(cipher, steps, &key, &nonce, &header, &sealed, &mut out);
        assert_eq!(answer.err(), expected.as_ref().err().copied(), "{name}");
        answers[answer.err().unwrap_or(0) as usize] += 1;
        let result = expected.unwrap_or_default();
        assert_eq!(out, [&result, &before[result.len()..]].concat(), "{name}");
    }
    assert!(answers.iter().all(|count| *count > 20), "{answers:?}");
}
