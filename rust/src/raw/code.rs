//! A language's code, as it is handed out.

use std::{fmt, str};

use super::CODE_ROOM;

/// A language's code: letters a to z, as `en`.
#[derive(Clone, Copy, PartialEq, Eq, PartialOrd, Ord, Hash)]
pub struct Code {
    /// The letters, and zeros behind them.
    bytes: [u8; CODE_ROOM],
    /// How many letters there are.
    len: usize,
}

impl Code {
    /// The code that the library has written, with its length.
    pub(super) fn new(bytes: [u8; CODE_ROOM], len: u64) -> Code {
        let len = usize::try_from(len).expect("within its room");
        Code { bytes, len }
    }

    /// The letters.
    pub fn as_str(&self) -> &str {
        str::from_utf8(&self.bytes[..self.len]).expect("letters a to z")
    }
}

impl fmt::Display for Code {
    fn fmt(&self, f: &mut fmt::Formatter) -> fmt::Result {
        f.pad(self.as_str())
    }
}

impl fmt::Debug for Code {
    fn fmt(&self, f: &mut fmt::Formatter) -> fmt::Result {
        fmt::Debug::fmt(self.as_str(), f)
    }
}
