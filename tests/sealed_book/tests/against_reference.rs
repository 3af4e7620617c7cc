//! The library against the reference, on one block: random inputs and inputs of a single bit.

mod common;

use common::{Block, DIRECTIONS};
use reference::cipher::SUITES;
use reference::random::Random;
use sealed_book::raw;

const SEED: u64 = 0x5343_5245_414D;

/// Random inputs for each suite.
const CASES: usize = 500;

/// Holds the two against each other, both directions from the same block.
fn compare(suite: (u8, u8), key: &Block, tweak: &Block, block: &Block, case: &str) {
    for direction in DIRECTIONS {
        let mut after = *block;
        let (mut lent_key, mut lent_tweak) = (*key, *tweak);
        let answer = direction.library(suite, &lent_key, &lent_tweak, &mut after);
        let name = format!("{direction:?}, suite {suite:?}, {case}");
        assert_eq!(answer, Ok(()), "{name}");
        let expected = direction.reference(suite, key, tweak, block);
        assert_eq!(Some(after), expected, "{name}");
        std::hint::black_box((&mut lent_key, &mut lent_tweak));
        assert_eq!((&lent_key, &lent_tweak), (key, tweak), "{name}");
    }
}

#[test]
fn random_inputs() {
    let mut random = Random::new(SEED);
    for suite in SUITES {
        for case in 0..CASES {
            let (key, tweak, block) = (random.bytes(), random.bytes(), random.bytes());
            let case = format!("seed {SEED:X}, case {case}");
            compare(suite, &key, &tweak, &block, &case);
        }
    }
}

#[test]
fn single_bits() {
    for suite in SUITES {
        for bit in 0..128 {
            let mut one = [0; 16];
            one[bit / 8] = 1 << (bit % 8);
            let zero = [0; 16];
            compare(suite, &one, &zero, &zero, &format!("key bit {bit}"));
            compare(suite, &zero, &one, &zero, &format!("tweak bit {bit}"));
            compare(suite, &zero, &zero, &one, &format!("block bit {bit}"));
        }
    }
}

#[test]
fn deciphering_undoes_enciphering() {
    let mut random = Random::new(SEED + 1);
    for (cipher, steps) in SUITES {
        for case in 0..CASES {
            let (key, tweak, block): (Block, Block, Block) =
                (random.bytes(), random.bytes(), random.bytes());
            let name = format!(
                "suite {:?}, seed {:X}, case {case}",
                (cipher, steps),
                SEED + 1
            );
            let mut there = block;
            assert_eq!(
                raw::encipher(cipher, steps, &key, &tweak, &mut there),
                Ok(()),
                "{name}"
            );
            let mut back = there;
            assert_eq!(
                raw::decipher(cipher, steps, &key, &tweak, &mut back),
                Ok(()),
                "{name}"
            );
            assert_ne!(there, block, "{name}");
            assert_eq!(back, block, "{name}");
        }
    }
}
