//! The calls of the writer of a book on its 64 bytes, whatever these are.

use crate::{foreign, refusal, Refusal};

/// How many bytes a writer has.
pub const LEN: usize = 64;

/// The writer's bytes; the header for C lists them.
pub type Bytes = [u8; LEN];

/// Starts a book at the start of the buffer, whatever the writer's bytes were. After a refusal they
/// are 0.
#[inline]
pub fn start(
    cipher: u8,
    steps: u8,
    key: &[u8],
    number: u64,
    buffer: &mut [u8],
    writer: &mut Bytes,
) -> Result<(), Refusal> {
    // SAFETY: each slice is given with its length, the writer has 64 bytes, and only the buffer and
    // the writer are written.
    let number = unsafe {
        foreign::sb_start(
            cipher,
            steps,
            key.as_ptr(),
            key.len(),
            number,
            buffer.as_mut_ptr(),
            buffer.len(),
            writer.as_mut_ptr(),
        )
    };
    refusal::answer(number)
}

/// Adds a unit at the writer's place. Each code is two letters a to z; the two may be the same.
#[inline]
pub fn add(
    writer: &mut Bytes,
    buffer: &mut [u8],
    from: &[u8; 2],
    to: &[u8; 2],
    source: &[u8],
    target: &[u8],
) -> Result<(), Refusal> {
    // SAFETY: the writer has 64 bytes, the codes have two each, each slice is given with its length,
    // and only the writer and the buffer are written.
    let number = unsafe {
        foreign::sb_add(
            writer.as_mut_ptr(),
            buffer.as_mut_ptr(),
            buffer.len(),
            from.as_ptr(),
            to.as_ptr(),
            source.as_ptr(),
            source.len(),
            target.as_ptr(),
            target.len(),
        )
    };
    refusal::answer(number)
}

/// Closes the book at the writer's place.
#[inline]
pub fn close(writer: &mut Bytes, buffer: &mut [u8]) -> Result<(), Refusal> {
    // SAFETY: the writer has 64 bytes, and the buffer is given with its length.
    let number =
        unsafe { foreign::sb_close(writer.as_mut_ptr(), buffer.as_mut_ptr(), buffer.len()) };
    refusal::answer(number)
}

/// The writer's place: how many bytes of the buffer are written.
#[inline]
pub fn place(writer: &Bytes) -> u64 {
    // SAFETY: the writer has 64 bytes, which are only read.
    unsafe { foreign::sb_place(writer.as_ptr()) }
}

/// How many units the writer has added.
#[inline]
pub fn units(writer: &Bytes) -> u64 {
    // SAFETY: the writer has 64 bytes, which are only read.
    unsafe { foreign::sb_units(writer.as_ptr()) }
}

/// How many calls of the cipher the book has taken.
#[inline]
pub fn calls(writer: &Bytes) -> u64 {
    // SAFETY: the writer has 64 bytes, which are only read.
    unsafe { foreign::sb_calls(writer.as_ptr()) }
}
