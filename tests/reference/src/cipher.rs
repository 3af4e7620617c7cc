//! Algorithm 1 of the paper, and its inverse.

use crate::boxes::{iscream, l_layer, s_layer, scream, Boxes};
use crate::state::{block, rows, xor, Block};
use crate::tweakey::tweakey;

/// The number of Scream in a suite.
pub const SCREAM: u8 = 1;

/// The number of iScream in a suite.
pub const ISCREAM: u8 = 2;

/// The listed suites: a cipher and its number of steps.
pub const SUITES: [(u8, u8); 8] = [
    (SCREAM, 6),
    (SCREAM, 8),
    (SCREAM, 10),
    (SCREAM, 12),
    (ISCREAM, 8),
    (ISCREAM, 10),
    (ISCREAM, 12),
    (ISCREAM, 14),
];

/// Rounds in a step.
const ROUNDS: u8 = 2;

/// Whether the suite is listed.
pub fn listed(cipher: u8, steps: u8) -> bool {
    SUITES.contains(&(cipher, steps))
}

/// The block enciphered under key and tweak; `None` where the suite is not listed.
pub fn encipher(cipher: u8, steps: u8, key: &Block, tweak: &Block, text: &Block) -> Option<Block> {
    if !listed(cipher, steps) {
        return None;
    }
    let boxes = boxes(cipher);
    let mut x = xor(&rows(text), &tweakey(cipher, key, tweak, 0));
    for step in 1..=steps {
        for round in 1..=ROUNDS {
            let r = ROUNDS * (step - 1) + round;
            x = s_layer(boxes.s, &x);
            x[0] ^= constant(r);
            x = l_layer(&boxes.l, &x);
        }
        x = xor(&x, &tweakey(cipher, key, tweak, step));
    }
    Some(block(&x))
}

/// The block that enciphers to this one; `None` where the suite is not listed.
pub fn decipher(cipher: u8, steps: u8, key: &Block, tweak: &Block, text: &Block) -> Option<Block> {
    if !listed(cipher, steps) {
        return None;
    }
    let boxes = boxes(cipher);
    let mut x = rows(text);
    for step in (1..=steps).rev() {
        x = xor(&x, &tweakey(cipher, key, tweak, step));
        for round in (1..=ROUNDS).rev() {
            let r = ROUNDS * (step - 1) + round;
            x = l_layer(&boxes.l_inverse, &x);
            x[0] ^= constant(r);
            x = s_layer(boxes.s_inverse, &x);
        }
    }
    Some(block(&xor(&x, &tweakey(cipher, key, tweak, 0))))
}

/// The boxes of a listed cipher.
fn boxes(cipher: u8) -> Boxes {
    if cipher == SCREAM {
        scream()
    } else {
        iscream()
    }
}

/// The constant of round r, added to row 0 (Appendix C).
fn constant(r: u8) -> u16 {
    27 * u16::from(r) % 256
}

#[cfg(test)]
mod tests {
    use super::*;
    use crate::random::Random;

    #[test]
    fn deciphering_undoes_enciphering() {
        let mut random = Random::new(1);
        for (cipher, steps) in SUITES {
            for _ in 0..20 {
                let (key, tweak, text) = (random.bytes(), random.bytes(), random.bytes());
                let there = encipher(cipher, steps, &key, &tweak, &text).unwrap();
                let back = decipher(cipher, steps, &key, &tweak, &there).unwrap();
                assert_eq!(back, text);
                assert_ne!(there, text);
            }
        }
    }

    #[test]
    fn eight_suites_are_listed() {
        let zero = [0; 16];
        let mut accepted = Vec::new();
        for cipher in 0..=255 {
            for steps in 0..=255 {
                if encipher(cipher, steps, &zero, &zero, &zero).is_some() {
                    accepted.push((cipher, steps));
                }
                assert_eq!(
                    decipher(cipher, steps, &zero, &zero, &zero).is_some(),
                    listed(cipher, steps)
                );
            }
        }
        let scream = [6, 8, 10, 12].map(|steps| (1, steps));
        let iscream = [8, 10, 12, 14].map(|steps| (2, steps));
        assert_eq!(accepted, [scream, iscream].concat());
    }

    #[test]
    fn constants_count_in_steps_of_27() {
        assert_eq!([1, 2, 9, 10, 28].map(constant), [27, 54, 243, 14, 244]);
    }
}
