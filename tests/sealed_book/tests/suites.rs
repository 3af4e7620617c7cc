//! All 65,536 pairs of a cipher's byte and a steps byte: the eight listed suites are accepted,
//! every other is refused and the blocks stay byte for byte.

mod common;

use common::{Block, Direction, DIRECTIONS};
use reference::random::Random;
use sealed_book::Refusal;

const SEED: u64 = 0x5355_4954_4553;

/// The suites that the functions accept.
const LISTED: [(u8, u8); 8] = [
    (1, 6),
    (1, 8),
    (1, 10),
    (1, 12),
    (2, 8),
    (2, 10),
    (2, 12),
    (2, 14),
];

/// Calls `check` with each pair, in order.
fn every_pair(mut check: impl FnMut((u8, u8))) {
    for cipher in 0..=255 {
        for steps in 0..=255 {
            check((cipher, steps));
        }
    }
}

/// One block after the reference, or as it was where the suite is not listed.
fn expected(
    direction: Direction,
    suite: (u8, u8),
    key: &Block,
    tweak: &[u8],
    block: &[u8],
) -> Block {
    let (tweak, block) = (tweak.try_into().unwrap(), block.try_into().unwrap());
    if LISTED.contains(&suite) {
        direction.reference(suite, key, tweak, block).unwrap()
    } else {
        *block
    }
}

/// The answer that a suite gets.
fn answer(suite: (u8, u8)) -> Result<(), Refusal> {
    if LISTED.contains(&suite) {
        Ok(())
    } else {
        Err(Refusal::SuiteNotListed)
    }
}

#[test]
fn one_block() {
    let mut random = Random::new(SEED);
    for direction in DIRECTIONS {
        let mut accepted = Vec::new();
        every_pair(|suite| {
            let (key, tweak, block): (Block, Block, Block) =
                (random.bytes(), random.bytes(), random.bytes());
            let name = format!("{direction:?}, suite {suite:?}, seed {SEED:X}");
            let mut after = block;
            let got = direction.library(suite, &key, &tweak, &mut after);
            assert_eq!(got, answer(suite), "{name}");
            let expected = expected(direction, suite, &key, &tweak, &block);
            assert_eq!(after, expected, "{name}");
            if got.is_ok() {
                accepted.push(suite);
            }
        });
        assert_eq!(accepted, LISTED);
    }
}

#[test]
fn many_blocks() {
    let mut random = Random::new(SEED + 1);
    for direction in DIRECTIONS {
        let mut accepted = Vec::new();
        every_pair(|suite| {
            let key = random.bytes();
            let (tweaks, before): ([u8; 40], [u8; 40]) = (random.bytes(), random.bytes());
            let name = format!("{direction:?}, suite {suite:?}, seed {:X}", SEED + 1);
            let mut after = before;
            let got = direction.library_blocks(suite, &key, &tweaks, &mut after);
            assert_eq!(got, answer(suite), "{name}");
            for at in [0, 16] {
                let (tweak, block) = (&tweaks[at..at + 16], &before[at..at + 16]);
                let expected = expected(direction, suite, &key, tweak, block);
                assert_eq!(after[at..at + 16], expected, "{name}");
            }
            assert_eq!(after[32..], before[32..], "{name}");
            if got.is_ok() {
                accepted.push(suite);
            }
        });
        assert_eq!(accepted, LISTED);
    }
}
