//! The writer of a book as a value: each call takes it and hands it back as it then is.

use std::fmt;

use crate::{raw, Refusal};

/// A writer whose fields are open to all, for tests and tools; a program wants [`Writer`](crate::Writer).
/// It holds the key. Any content may be lent to a call, and is answered; what stands before the place in
/// the buffer must not be changed between the calls for one book, and of a writer and its older copy only
/// one may go on.
#[derive(Clone, Copy, PartialEq, Eq)]
pub struct Writer {
    /// The suite's cipher: 1 Scream, 2 iScream.
    pub cipher: u8,
    /// The suite's number of steps.
    pub steps: u8,
    /// The key.
    pub key: [u8; 16],
    /// The book's number, never used twice under one key.
    pub number: u64,
    /// How many bytes of the buffer are written.
    pub place: u64,
    /// How many units are added.
    pub units: u64,
    /// How many calls of the cipher the book has taken.
    pub calls: u64,
    /// Whether units may be added still.
    pub open: bool,
}

impl Writer {
    /// Starts a book at the start of the buffer, of which it takes [`raw::FIRST_UNIT`] bytes. Where it is
    /// refused, the writer is a closed one of zeros.
    pub fn start(
        cipher: u8,
        steps: u8,
        key: &[u8],
        number: u64,
        buffer: &mut [u8],
    ) -> (Writer, Result<(), Refusal>) {
        let mut bytes = [0; raw::LEN];
        let answer = raw::start(cipher, steps, key, number, buffer, &mut bytes);
        (Writer::from_bytes(&bytes), answer)
    }

    /// Adds a unit, which takes [`raw::unit_room`] bytes of the buffer. Each code is two letters a to z; the two may
    /// be the same.
    pub fn add(
        self,
        buffer: &mut [u8],
        from: &[u8; 2],
        to: &[u8; 2],
        source: &[u8],
        target: &[u8],
    ) -> (Writer, Result<(), Refusal>) {
        let mut bytes = self.to_bytes();
        let answer = raw::add(&mut bytes, buffer, from, to, source, target);
        (Writer::from_bytes(&bytes), answer)
    }

    /// Closes the book, which takes [`raw::CLOSE_ROOM`] bytes of the buffer.
    pub fn close(self, buffer: &mut [u8]) -> (Writer, Result<(), Refusal>) {
        let mut bytes = self.to_bytes();
        let answer = raw::close(&mut bytes, buffer);
        (Writer::from_bytes(&bytes), answer)
    }

    /// The writer of these 64 bytes.
    pub fn from_bytes(bytes: &raw::Bytes) -> Writer {
        let mut number = [0; 8];
        number.copy_from_slice(&bytes[8..16]);
        let mut key = [0; 16];
        key.copy_from_slice(&bytes[16..32]);
        Writer {
            cipher: bytes[0],
            steps: bytes[1],
            key,
            number: u64::from_be_bytes(number),
            place: raw::place(bytes),
            units: raw::units(bytes),
            calls: raw::calls(bytes),
            open: bytes[2] == 1,
        }
    }

    /// Its 64 bytes, those that are not used 0.
    pub fn to_bytes(&self) -> raw::Bytes {
        let mut bytes = [0; raw::LEN];
        bytes[..3].copy_from_slice(&[self.cipher, self.steps, self.open.into()]);
        bytes[8..16].copy_from_slice(&self.number.to_be_bytes());
        bytes[16..32].copy_from_slice(&self.key);
        for (at, number) in [(32, self.place), (40, self.units), (48, self.calls)] {
            bytes[at..at + 8].copy_from_slice(&number.to_be_bytes());
        }
        bytes
    }
}

impl fmt::Debug for Writer {
    /// All but the key.
    fn fmt(&self, f: &mut fmt::Formatter) -> fmt::Result {
        f.debug_struct("Writer")
            .field("cipher", &self.cipher)
            .field("steps", &self.steps)
            .field("number", &self.number)
            .field("place", &self.place)
            .field("units", &self.units)
            .field("calls", &self.calls)
            .field("open", &self.open)
            .finish_non_exhaustive()
    }
}
