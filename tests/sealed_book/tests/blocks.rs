//! The functions on many blocks: every whole block that both slices have is done as by the
//! reference, each under its own tweak, and all other bytes stay, around the slices too.

mod common;

use common::{Block, Direction, DIRECTIONS};
use reference::cipher::SUITES;
use reference::random::Random;
use sealed_book::Refusal;

const SEED: u64 = 0x424C_4F43_4B53;

/// Bytes before and after a slice that a call must leave as they are.
const GUARD: usize = 48;

/// Tweaks and blocks with room for guards, and what the reference makes of each block.
struct Data {
    direction: Direction,
    suite: (u8, u8),
    key: Block,
    tweaks: Vec<u8>,
    blocks: Vec<u8>,
    expected: Vec<Block>,
}

impl Data {
    fn new(random: &mut Random, direction: Direction, suite: (u8, u8), count: usize) -> Data {
        let key = random.bytes();
        let mut tweaks = vec![0; 16 * count + 2 * GUARD];
        let mut blocks = vec![0; 16 * count + 2 * GUARD];
        random.fill(&mut tweaks);
        random.fill(&mut blocks);
        let block =
            |bytes: &[u8], i: usize| -> Block { bytes[GUARD + 16 * i..][..16].try_into().unwrap() };
        let expected = (0..count)
            .map(|i| {
                direction
                    .reference(suite, &key, &block(&tweaks, i), &block(&blocks, i))
                    .unwrap()
            })
            .collect();
        Data {
            direction,
            suite,
            key,
            tweaks,
            blocks,
            expected,
        }
    }

    /// Calls the library on slices of these lengths, as that suite, and compares every byte.
    fn check(&self, suite: (u8, u8), tweaks_len: usize, blocks_len: usize) {
        let mut key = self.key;
        let (mut tweaks, mut blocks) = (self.tweaks.clone(), self.blocks.clone());
        let answer = self.direction.library_blocks(
            suite,
            &key,
            &tweaks[GUARD..GUARD + tweaks_len],
            &mut blocks[GUARD..GUARD + blocks_len],
        );
        let name = format!(
            "{:?}, suite {suite:?}, {tweaks_len} bytes of tweaks, {blocks_len} of blocks, seed {SEED:X}",
            self.direction
        );
        let mut expected = self.blocks.clone();
        if suite == self.suite {
            assert_eq!(answer, Ok(()), "{name}");
            for i in 0..(tweaks_len / 16).min(blocks_len / 16) {
                expected[GUARD + 16 * i..][..16].copy_from_slice(&self.expected[i]);
            }
        } else {
            assert_eq!(answer, Err(Refusal::SuiteNotListed), "{name}");
        }
        if let Some(at) = (0..blocks.len()).find(|&at| blocks[at] != expected[at]) {
            let at = at as isize - GUARD as isize;
            panic!("the byte at {at} of the blocks is not as expected: {name}");
        }
        std::hint::black_box((&mut key, &mut tweaks));
        assert!(key == self.key, "the key is changed: {name}");
        assert!(tweaks == self.tweaks, "the tweaks are changed: {name}");
    }
}

/// Every length of both slices from 0 to 100 bytes.
#[test]
fn short_slices() {
    let mut random = Random::new(SEED);
    for direction in DIRECTIONS {
        for suite in SUITES {
            let data = Data::new(&mut random, direction, suite, 7);
            for tweaks_len in 0..=100 {
                for blocks_len in 0..=100 {
                    data.check(suite, tweaks_len, blocks_len);
                }
            }
        }
    }
}

/// Every length to 320 bytes, the other slice as long, shorter or longer by some bytes.
#[test]
fn slices_of_some_hundred_bytes() {
    let mut random = Random::new(SEED + 1);
    for direction in DIRECTIONS {
        for suite in SUITES {
            let data = Data::new(&mut random, direction, suite, 22);
            for len in 0..=320 {
                for more in [0, 1, 15, 16, 17] {
                    data.check(suite, len, len + more);
                    data.check(suite, len + more, len);
                }
            }
        }
    }
}

/// Every number of blocks up to 199: about 64, 128 and 192 a library that takes many at once begins anew, and somewhere
/// between it takes those that are left over in another way.
#[test]
fn long_slices() {
    let mut random = Random::new(SEED + 2);
    for direction in DIRECTIONS {
        for suite in SUITES {
            let data = Data::new(&mut random, direction, suite, 200);
            for count in 22..200 {
                for extra in [0, 1, 15] {
                    let len = 16 * count + extra;
                    data.check(suite, len, len);
                    data.check(suite, len, 16 * 200);
                    data.check(suite, 16 * 200, len);
                }
            }
            for _ in 0..20 {
                data.check(suite, random.below(3201), random.below(3201));
            }
        }
    }
}

/// Suites that are not listed, beside each that is.
#[test]
fn unlisted_suites_change_nothing() {
    let mut random = Random::new(SEED + 3);
    for direction in DIRECTIONS {
        let data = Data::new(&mut random, direction, (1, 10), 66);
        for suite in [
            (0, 10),
            (1, 0),
            (1, 4),
            (1, 7),
            (1, 14),
            (2, 6),
            (2, 9),
            (2, 16),
            (3, 10),
            (10, 1),
            (255, 255),
        ] {
            for len in [0, 1, 15, 16, 17, 32, 100, 1023, 1024, 1025, 1056] {
                data.check(suite, len, len);
                data.check(suite, 1056, len);
                data.check(suite, len, 1056);
            }
        }
    }
}

#[test]
fn empty_slices() {
    let key = [7; 16];
    for direction in DIRECTIONS {
        for suite in SUITES {
            assert_eq!(direction.library_blocks(suite, &key, &[], &mut []), Ok(()));
        }
        assert_eq!(
            direction.library_blocks((3, 10), &key, &[], &mut []),
            Err(Refusal::SuiteNotListed)
        );
    }
}
