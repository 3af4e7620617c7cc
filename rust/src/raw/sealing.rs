//! Sealing and opening.

use crate::{foreign, refusal, Refusal};

/// What sealing returns.
#[derive(Clone, Copy, Debug, PartialEq, Eq)]
pub struct Sealed {
    /// How many bytes were written.
    pub len: usize,
    /// How many calls of the cipher they took.
    pub calls: u64,
}

/// Seals the text, and the header along with it, under key and nonce. Writes the ciphertext and then
/// the tag at the start of `out`, which takes 16 bytes more than the text.
#[inline]
pub fn seal(
    cipher: u8,
    steps: u8,
    key: &[u8],
    nonce: &[u8],
    header: &[u8],
    text: &[u8],
    out: &mut [u8],
) -> Result<Sealed, Refusal> {
    let (mut len, mut calls) = (0, 0);
    // SAFETY: each slice is given with its length, and only `out` and the two numbers are written.
    let number = unsafe {
        foreign::sb_seal(
            cipher,
            steps,
            key.as_ptr(),
            key.len(),
            nonce.as_ptr(),
            nonce.len(),
            header.as_ptr(),
            header.len(),
            text.as_ptr(),
            text.len(),
            out.as_mut_ptr(),
            out.len(),
            &mut len,
            &mut calls,
        )
    };
    refusal::answer(number)?;
    let len = usize::try_from(len).expect("no longer than the output");
    Ok(Sealed { len, calls })
}

/// Opens what was sealed with this header under this key and nonce. Writes the text at the start of
/// `out`, and returns its length.
#[inline]
pub fn open(
    cipher: u8,
    steps: u8,
    key: &[u8],
    nonce: &[u8],
    header: &[u8],
    sealed: &[u8],
    out: &mut [u8],
) -> Result<usize, Refusal> {
    let mut len = 0;
    // SAFETY: each slice is given with its length, and only `out` and the number are written.
    let number = unsafe {
        foreign::sb_open(
            cipher,
            steps,
            key.as_ptr(),
            key.len(),
            nonce.as_ptr(),
            nonce.len(),
            header.as_ptr(),
            header.len(),
            sealed.as_ptr(),
            sealed.len(),
            out.as_mut_ptr(),
            out.len(),
            &mut len,
        )
    };
    refusal::answer(number)?;
    Ok(usize::try_from(len).expect("no longer than the output"))
}
