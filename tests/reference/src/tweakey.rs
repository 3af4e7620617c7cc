//! The tweakeys: what is added to the state before the first step and after each step.

use crate::cipher::SCREAM;
use crate::state::{rows, xor, Block, State};

/// Half a tweak.
type Half = [u8; 8];

/// TK(step) of a cipher.
pub fn tweakey(cipher: u8, key: &Block, tweak: &Block, step: u8) -> State {
    if cipher == SCREAM {
        scream(key, tweak, step)
    } else {
        iscream(key, tweak, step)
    }
}

/// Scream: K xor phi applied step mod 3 times to the tweak.
fn scream(key: &Block, tweak: &Block, step: u8) -> State {
    let mut halves = split(tweak);
    for _ in 0..step % 3 {
        halves = phi(halves);
    }
    xor(&rows(key), &rows(&join(halves)))
}

/// iScream: the tweak xor K after an even step; the tweak with each row rotated after an odd one.
fn iscream(key: &Block, tweak: &Block, step: u8) -> State {
    match step % 2 {
        0 => xor(&rows(tweak), &rows(key)),
        _ => rows(tweak).map(rotated),
    }
}

/// phi(x0, x1) = (x0 xor x1, x0).
fn phi((x0, x1): (Half, Half)) -> (Half, Half) {
    (std::array::from_fn(|i| x0[i] ^ x1[i]), x0)
}

/// A row rotated left by one bit.
fn rotated(row: u16) -> u16 {
    row.rotate_left(1)
}

/// The first 8 bytes and the last 8.
fn split(tweak: &Block) -> (Half, Half) {
    (
        std::array::from_fn(|i| tweak[i]),
        std::array::from_fn(|i| tweak[8 + i]),
    )
}

/// The 16 bytes of two halves.
fn join((x0, x1): (Half, Half)) -> Block {
    std::array::from_fn(|i| if i < 8 { x0[i] } else { x1[i - 8] })
}

#[cfg(test)]
mod tests {
    use super::*;
    use crate::cipher::ISCREAM;

    const KEY: Block = *b"sixteen key byte";
    const TWEAK: Block = *b"a tweak of bytes";

    #[test]
    fn known_values_of_phi() {
        let pair = |a: u64, b: u64| (a.to_be_bytes(), b.to_be_bytes());
        assert_eq!(phi(pair(1, 2)), pair(3, 1));
        assert_eq!(phi(pair(3, 1)), pair(2, 3));
        assert_eq!(phi(pair(2, 3)), pair(1, 2));
    }

    #[test]
    fn known_value_of_the_rotation() {
        assert_eq!(rotated(0x8001), 0x0003);
    }

    /// The three lines of section 3.2 beside the rule by phi.
    #[test]
    fn scream_has_the_three_tweakeys_of_the_paper() {
        let (t0, t1) = split(&TWEAK);
        let sum: Half = std::array::from_fn(|i| t0[i] ^ t1[i]);
        for i in 0..4 {
            for (step, halves) in [
                (3 * i, (t0, t1)),
                (3 * i + 1, (sum, t0)),
                (3 * i + 2, (t1, sum)),
            ] {
                let expected = xor(&rows(&KEY), &rows(&join(halves)));
                assert_eq!(tweakey(SCREAM, &KEY, &TWEAK, step), expected);
            }
        }
    }

    #[test]
    fn iscream_leaves_the_key_out_after_odd_steps() {
        let zero = [0; 16];
        for step in 0..=14 {
            let with_key = tweakey(ISCREAM, &KEY, &TWEAK, step);
            let without = tweakey(ISCREAM, &zero, &TWEAK, step);
            assert_eq!(with_key == without, step % 2 == 1);
        }
        let mut tweak = zero;
        tweak[6] = 0x01;
        tweak[7] = 0x80;
        assert_eq!(tweakey(ISCREAM, &KEY, &tweak, 1)[3], 0x0003);
    }
}
