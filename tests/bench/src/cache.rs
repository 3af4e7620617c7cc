//! The hardware's caches.

/// Puts the bytes out of all caches, so that they are next read from memory. Returns whether that is
/// possible.
#[cfg(target_arch = "x86_64")]
pub fn put_out(bytes: &[u8]) -> bool {
    use std::arch::x86_64::{_mm_clflush, _mm_mfence};
    for line in bytes.chunks(64) {
        // SAFETY: every x86-64 processor has both instructions, and they change no byte.
        unsafe { _mm_clflush(line.as_ptr()) };
    }
    if let Some(last) = bytes.last() {
        // SAFETY: as above. The last byte may stand in one line more.
        unsafe { _mm_clflush(last) };
    }
    // SAFETY: as above.
    unsafe { _mm_mfence() };
    true
}

#[cfg(not(target_arch = "x86_64"))]
pub fn put_out(_: &[u8]) -> bool {
    false
}
