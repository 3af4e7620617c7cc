//! What a call may write, with guards around it, and bytes and numbers that are known before the call.

use std::hint::black_box;
use std::ptr::null_mut;

use super::assert_same;

/// Bytes before and after an output, and before and after what is lent to be read.
pub const GUARD: [u8; 32] = [0x5A; 32];

/// An output with guards around it, filled with bytes that are known.
pub struct Output {
    bytes: Vec<u8>,
}

impl Output {
    pub fn new(len: usize) -> Output {
        let bytes = (0..len + 2 * GUARD.len()).map(filler).collect();
        Output { bytes }
    }

    pub fn slice(&mut self) -> &mut [u8] {
        let end = self.bytes.len() - GUARD.len();
        &mut self.bytes[GUARD.len()..end]
    }

    /// Null for an output of length 0.
    pub fn pointer(&mut self) -> *mut u8 {
        match self.slice() {
            [] => null_mut(),
            slice => slice.as_mut_ptr(),
        }
    }

    /// The result stands at the start; all after it, and the guards, are as they were.
    pub fn assert_begins_with(&self, result: &[u8], name: &str) {
        for (i, byte) in self.bytes.iter().enumerate() {
            let in_result = i.checked_sub(GUARD.len()).and_then(|i| result.get(i));
            let expected = in_result.copied().unwrap_or_else(|| filler(i));
            if *byte != expected {
                let at = i as isize - GUARD.len() as isize;
                panic!("output byte {at} is {byte:02X}, not {expected:02X}: {name}");
            }
        }
    }
}

/// What byte i of an output and its guards is before a call.
fn filler(i: usize) -> u8 {
    ((i as u64 + 1).wrapping_mul(0x9E37_79B9_7F4A_7C15) >> 56) as u8
}

/// Numbers that a call may write, with guards before, between and behind them.
#[derive(Clone, Debug, PartialEq)]
pub struct Numbers<const N: usize>(Vec<u64>);

impl<const N: usize> Numbers<N> {
    /// As a call finds them, and leaves them where it refuses.
    pub fn before() -> Numbers<N> {
        Numbers((1..2 * N as u64 + 4).map(|i| i * 0x1111_1111).collect())
    }

    /// As a call leaves them that writes these.
    pub fn with(written: [u64; N]) -> Numbers<N> {
        let mut numbers = Numbers::before();
        for (i, number) in written.into_iter().enumerate() {
            numbers.set(i, number);
        }
        numbers
    }

    /// Number i is written.
    pub fn set(&mut self, i: usize, number: u64) {
        self.0[Self::place(i)] = number;
    }

    pub fn pointers(&mut self) -> [*mut u64; N] {
        let start = self.0.as_mut_ptr();
        std::array::from_fn(|i| start.wrapping_add(Self::place(i)))
    }

    /// Two guards stand before the first and behind the last, and one between two.
    fn place(i: usize) -> usize {
        2 + 2 * i
    }
}

/// Bytes that are lent to be read, with guards around them.
pub struct Lent {
    room: Vec<u8>,
    lent: Vec<u8>,
}

impl Lent {
    pub fn new(bytes: &[u8]) -> Lent {
        let room = [&GUARD, bytes, &GUARD].concat();
        let lent = room.clone();
        Lent { room, lent }
    }

    pub fn slice(&self) -> &[u8] {
        &self.lent[GUARD.len()..self.lent.len() - GUARD.len()]
    }

    /// Neither they nor the guards are changed.
    pub fn assert_unchanged(mut self, name: impl Fn() -> String) {
        black_box(&mut self.lent);
        assert_same(&self.lent, &self.room, || {
            format!("lent to be read: {}", name())
        });
    }
}
