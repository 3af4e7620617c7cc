//! Sealing and opening a single text.

use reference::random::Random;
use reference::sealing;
use sealed_book::{open, seal, Refusal, Suite};

const SEED: u64 = 0x5345_414C;

/// The second implementation seals to the same bytes, and what is sealed opens.
#[test]
fn there_and_back() {
    let mut random = Random::new(SEED);
    for suite in Suite::ALL {
        let [cipher, steps] = suite.to_bytes();
        for (n, a, m) in [(1, 0, 0), (12, 25, 13), (15, 16, 32), (8, 1, 1_000)] {
            let key = random.bytes();
            let [nonce, header, text] = [n, a, m].map(|len| random.some_bytes(len));
            let sealed = seal(suite, &key, &nonce, &header, &text).unwrap();
            let (expected, _) =
                sealing::seal(cipher, steps, &key, &nonce, &header, &text, m + 16).unwrap();
            assert_eq!(sealed, expected, "{suite}, {n}, {a}, {m}, seed {SEED:X}");
            let opened = open(suite, &key, &nonce, &header, &sealed);
            assert_eq!(opened, Ok(text), "{suite}, {n}, {a}, {m}, seed {SEED:X}");
        }
    }
}

/// A change of any bit of nonce, header or sealed bytes is seen.
#[test]
fn changes_are_seen() {
    let (suite, key) = (Suite::ISCREAM_8, [9; 16]);
    let (nonce, header, text) = (*b"twelve bytes", *b"a header", *b"a text of some length");
    let sealed = seal(suite, &key, &nonce, &header, &text).unwrap();
    let opened = |parts: &[Vec<u8>; 3]| open(suite, &key, &parts[0], &parts[1], &parts[2]);
    let parts = [nonce.to_vec(), header.to_vec(), sealed];
    assert_eq!(opened(&parts), Ok(text.to_vec()));
    for part in 0..3 {
        for bit in 0..8 * parts[part].len() {
            let mut changed = parts.clone();
            changed[part][bit / 8] ^= 1 << (bit % 8);
            let answer = opened(&changed);
            assert_eq!(answer, Err(Refusal::TagDiffers), "{part}, bit {bit}");
        }
    }
}

/// Lengths at their limits and past them, and of several causes the first. With a nonce of 15 bytes the
/// header may have 1,024 bytes and the text 2,048.
#[test]
fn refusals() {
    use Refusal::*;
    for (n, a, m, refusal) in [
        (15, 1_024, 2_048, None),
        (0, 0, 0, Some(NonceLength)),
        (16, 0, 0, Some(NonceLength)),
        (16, 1_025, 2_049, Some(NonceLength)),
        (15, 1_025, 0, Some(HeaderTooLong)),
        (15, 1_025, 2_049, Some(HeaderTooLong)),
        (15, 1_024, 2_049, Some(TextTooLong)),
    ] {
        let (suite, key) = (Suite::SCREAM_6, [1; 16]);
        let (nonce, header) = (vec![2; n], vec![3; a]);
        let sealed = seal(suite, &key, &nonce, &header, &vec![4; m]);
        assert_eq!(sealed.as_ref().err(), refusal.as_ref(), "{n}, {a}, {m}");

        let sealed = sealed.unwrap_or(vec![5; m + 16]);
        let opened = open(suite, &key, &nonce, &header, &sealed);
        assert_eq!(opened.err(), refusal, "{n}, {a}, {m}");

        // fewer bytes than a tag has come before too long a text, and after the other two
        let refusal = refusal.filter(|first| *first != TextTooLong);
        for len in 0..16 {
            let opened = open(suite, &key, &nonce, &header, &sealed[..len]);
            let expected = Err(refusal.unwrap_or(SealedTooShort));
            assert_eq!(opened, expected, "{n}, {a}, {m}, {len} sealed bytes");
        }
    }
}
