//! Bytes with a key among them.

use std::ptr;

/// So many bytes, which are cleared when they are dropped. They have no `Debug`.
#[derive(Clone)]
pub(crate) struct Secret<const N: usize>(pub(crate) [u8; N]);

impl<const N: usize> Drop for Secret<N> {
    fn drop(&mut self) {
        // SAFETY: the array is lent to be written. A plain write to what is about to go could be left out.
        unsafe { ptr::write_volatile(&mut self.0, [0; N]) };
    }
}

#[cfg(test)]
mod tests {
    use std::mem::MaybeUninit;

    use super::*;

    #[test]
    fn cleared_when_dropped() {
        let mut room = MaybeUninit::new(Secret([7; 16]));
        let secret = room.as_mut_ptr();
        // SAFETY: it is dropped this once, and its room keeps the bytes that dropping has left.
        let left = unsafe {
            ptr::drop_in_place(secret);
            secret.cast::<[u8; 16]>().read_volatile()
        };
        assert_eq!(left, [0; 16]);
    }
}
