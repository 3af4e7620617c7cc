//! Both directions of a cipher, in the library and in the reference; sealing; writing and checking a
//! book, fetching from it, comparing a sentence with it, and what it says in the clear; causes of refusal;
//! programs for the shell; scripts; and documents.

// Each test file uses a part of this.
#![allow(dead_code)]

pub mod causes;
pub mod checking;
pub mod clearing;
pub mod document;
pub mod fetching;
pub mod guarded;
pub mod paging;
pub mod parts;
pub mod program;
pub mod refused;
pub mod script;
pub mod sealing;
pub mod spoiled;
pub mod spoiling;
pub mod texts;
pub mod writing;

use std::ptr::null;

use sealed_book::{raw, Refusal};

pub type Block = [u8; 16];

/// Suites that are not listed.
pub const UNLISTED: [(u8, u8); 8] = [
    (0, 0),
    (0, 10),
    (1, 4),
    (1, 7),
    (1, 14),
    (2, 6),
    (3, 10),
    (255, 255),
];

/// The refusal of a number that the reference gave.
pub fn refusal(number: u32) -> Refusal {
    Refusal::from_number(number).expect("a refusal's number")
}

/// Two language codes with each byte at each place, and at the same place of both: the byte, and the codes. Of the
/// letters, four make two codes the same, and each does where it stands in both.
pub fn codes_with_each_byte() -> impl Iterator<Item = (u8, [u8; 4])> {
    let places = (0..6).flat_map(|at| (0..=255).map(move |byte| (at, byte)));
    places.map(|(at, byte): (usize, u8)| {
        let mut codes = if at % 2 == 0 { *b"enin" } else { *b"esen" };
        match at {
            0..4 => codes[at] = byte,
            4 => codes = [byte, b'n', byte, b'n'],
            _ => codes = [b'e', byte, b'e', byte],
        }
        (byte, codes)
    })
}

/// How many of these codes are letters, and how many of them are twice the same code.
pub const CODES_OF_LETTERS: (usize, usize) = (6 * 26, 4 + 2 * 26);

/// Bytes in hexadecimal.
pub fn hex(bytes: &[u8]) -> String {
    bytes.iter().map(|byte| format!("{byte:02X}")).collect()
}

/// Null for a slice of length 0.
pub fn pointer(bytes: &[u8]) -> *const u8 {
    match bytes {
        [] => null(),
        _ => bytes.as_ptr(),
    }
}

/// Says where two buffers differ first.
pub fn assert_same(after: &[u8], expected: &[u8], name: impl Fn() -> String) {
    assert_eq!(after.len(), expected.len());
    if after != expected {
        let at = (0..after.len()).find(|&at| after[at] != expected[at]);
        panic!(
            "the byte at {at:?} of {} is not as expected: {}",
            after.len(),
            name()
        );
    }
}

/// Two blocks of 16 bytes change places.
pub fn swapped(bytes: &[u8], one: usize, other: usize) -> Vec<u8> {
    let mut swapped = bytes.to_vec();
    for i in 0..16 {
        swapped.swap(16 * one + i, 16 * other + i);
    }
    assert_ne!(swapped, bytes);
    swapped
}

#[derive(Clone, Copy, Debug, PartialEq)]
pub enum Direction {
    Encipher,
    Decipher,
}

pub const DIRECTIONS: [Direction; 2] = [Direction::Encipher, Direction::Decipher];

impl Direction {
    /// The library on one block in place.
    pub fn library(
        self,
        (cipher, steps): (u8, u8),
        key: &Block,
        tweak: &Block,
        block: &mut Block,
    ) -> Result<(), Refusal> {
        match self {
            Direction::Encipher => raw::encipher(cipher, steps, key, tweak, block),
            Direction::Decipher => raw::decipher(cipher, steps, key, tweak, block),
        }
    }

    /// The library on slices of tweaks and blocks in place.
    pub fn library_blocks(
        self,
        (cipher, steps): (u8, u8),
        key: &Block,
        tweaks: &[u8],
        blocks: &mut [u8],
    ) -> Result<(), Refusal> {
        match self {
            Direction::Encipher => raw::encipher_blocks(cipher, steps, key, tweaks, blocks),
            Direction::Decipher => raw::decipher_blocks(cipher, steps, key, tweaks, blocks),
        }
    }

    /// The reference on one block.
    pub fn reference(
        self,
        (cipher, steps): (u8, u8),
        key: &Block,
        tweak: &Block,
        block: &Block,
    ) -> Option<Block> {
        match self {
            Direction::Encipher => reference::cipher::encipher(cipher, steps, key, tweak, block),
            Direction::Decipher => reference::cipher::decipher(cipher, steps, key, tweak, block),
        }
    }
}
