//! The block ciphers.

use crate::{foreign, refusal, Refusal};

/// Enciphers the block in place under key and tweak.
#[inline]
pub fn encipher(
    cipher: u8,
    steps: u8,
    key: &[u8; 16],
    tweak: &[u8; 16],
    block: &mut [u8; 16],
) -> Result<(), Refusal> {
    // SAFETY: the three pointers are to 16 bytes each, and only the block's are written.
    let number = unsafe {
        foreign::sb_encipher(
            cipher,
            steps,
            key.as_ptr(),
            tweak.as_ptr(),
            block.as_mut_ptr(),
        )
    };
    refusal::answer(number)
}

/// Deciphers the block in place under key and tweak.
#[inline]
pub fn decipher(
    cipher: u8,
    steps: u8,
    key: &[u8; 16],
    tweak: &[u8; 16],
    block: &mut [u8; 16],
) -> Result<(), Refusal> {
    // SAFETY: the three pointers are to 16 bytes each, and only the block's are written.
    let number = unsafe {
        foreign::sb_decipher(
            cipher,
            steps,
            key.as_ptr(),
            tweak.as_ptr(),
            block.as_mut_ptr(),
        )
    };
    refusal::answer(number)
}

/// Enciphers in place every whole block of 16 bytes that both slices have, each under its own tweak.
#[inline]
pub fn encipher_blocks(
    cipher: u8,
    steps: u8,
    key: &[u8; 16],
    tweaks: &[u8],
    blocks: &mut [u8],
) -> Result<(), Refusal> {
    // SAFETY: the key has 16 bytes, each slice is given with its length, and only `blocks` is written.
    let number = unsafe {
        foreign::sb_encipher_blocks(
            cipher,
            steps,
            key.as_ptr(),
            tweaks.as_ptr(),
            tweaks.len(),
            blocks.as_mut_ptr(),
            blocks.len(),
        )
    };
    refusal::answer(number)
}

/// Deciphers in place every whole block of 16 bytes that both slices have, each under its own tweak.
#[inline]
pub fn decipher_blocks(
    cipher: u8,
    steps: u8,
    key: &[u8; 16],
    tweaks: &[u8],
    blocks: &mut [u8],
) -> Result<(), Refusal> {
    // SAFETY: the key has 16 bytes, each slice is given with its length, and only `blocks` is written.
    let number = unsafe {
        foreign::sb_decipher_blocks(
            cipher,
            steps,
            key.as_ptr(),
            tweaks.as_ptr(),
            tweaks.len(),
            blocks.as_mut_ptr(),
            blocks.len(),
        )
    };
    refusal::answer(number)
}
