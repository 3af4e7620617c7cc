//! Suites: a cipher and a number of steps.

use std::fmt;

use crate::Refusal;

/// A tweakable block cipher. Its value is the byte that stands for it in a book.
#[derive(Clone, Copy, Debug, PartialEq, Eq, Hash)]
#[repr(u8)]
pub enum Cipher {
    /// Scream.
    Scream = 1,
    /// iScream.
    IScream = 2,
}

impl fmt::Display for Cipher {
    fn fmt(&self, f: &mut fmt::Formatter) -> fmt::Result {
        f.write_str(match self {
            Cipher::Scream => "Scream",
            Cipher::IScream => "iScream",
        })
    }
}

/// One of the eight suites that are listed. There is no other value of this type.
///
/// More steps take more time. docs/SECURITY.md in the repository says what is known of the ciphers'
/// strength.
///
/// ```
/// use sealed_book::{Cipher, Refusal, Suite};
///
/// assert_eq!(Suite::new(Cipher::Scream, 10), Ok(Suite::SCREAM_10));
/// assert_eq!(Suite::new(Cipher::Scream, 14), Err(Refusal::SuiteNotListed));
/// assert_eq!(Suite::ISCREAM_12.to_string(), "iScream with 12 steps");
/// ```
#[derive(Clone, Copy, Debug, PartialEq, Eq, Hash)]
pub struct Suite {
    cipher: Cipher,
    steps: u8,
}

impl Suite {
    /// Scream with 6 steps.
    pub const SCREAM_6: Suite = Suite::scream(6);
    /// Scream with 8 steps.
    pub const SCREAM_8: Suite = Suite::scream(8);
    /// Scream with 10 steps.
    pub const SCREAM_10: Suite = Suite::scream(10);
    /// Scream with 12 steps.
    pub const SCREAM_12: Suite = Suite::scream(12);
    /// iScream with 8 steps.
    pub const ISCREAM_8: Suite = Suite::iscream(8);
    /// iScream with 10 steps.
    pub const ISCREAM_10: Suite = Suite::iscream(10);
    /// iScream with 12 steps.
    pub const ISCREAM_12: Suite = Suite::iscream(12);
    /// iScream with 14 steps.
    pub const ISCREAM_14: Suite = Suite::iscream(14);

    /// All of them.
    pub const ALL: [Suite; 8] = [
        Suite::SCREAM_6,
        Suite::SCREAM_8,
        Suite::SCREAM_10,
        Suite::SCREAM_12,
        Suite::ISCREAM_8,
        Suite::ISCREAM_10,
        Suite::ISCREAM_12,
        Suite::ISCREAM_14,
    ];

    const fn scream(steps: u8) -> Suite {
        Suite {
            cipher: Cipher::Scream,
            steps,
        }
    }

    const fn iscream(steps: u8) -> Suite {
        Suite {
            cipher: Cipher::IScream,
            steps,
        }
    }

    /// The suite of this cipher with so many steps: 6, 8, 10 or 12 for Scream, 8, 10, 12 or 14 for
    /// iScream.
    ///
    /// # Errors
    ///
    /// [`Refusal::SuiteNotListed`] for any other number of steps.
    pub const fn new(cipher: Cipher, steps: u8) -> Result<Suite, Refusal> {
        match (cipher, steps) {
            (Cipher::Scream, 6 | 8 | 10 | 12) | (Cipher::IScream, 8 | 10 | 12 | 14) => {
                Ok(Suite { cipher, steps })
            }
            _ => Err(Refusal::SuiteNotListed),
        }
    }

    /// The suite of the two bytes that a book has for it: cipher and steps.
    ///
    /// # Errors
    ///
    /// [`Refusal::SuiteNotListed`] where they are none.
    pub const fn from_bytes([cipher, steps]: [u8; 2]) -> Result<Suite, Refusal> {
        match cipher {
            1 => Suite::new(Cipher::Scream, steps),
            2 => Suite::new(Cipher::IScream, steps),
            _ => Err(Refusal::SuiteNotListed),
        }
    }

    /// The two bytes that a book has for it: cipher and steps.
    pub const fn to_bytes(self) -> [u8; 2] {
        [self.cipher as u8, self.steps]
    }

    /// The cipher.
    pub const fn cipher(self) -> Cipher {
        self.cipher
    }

    /// The number of steps.
    pub const fn steps(self) -> u8 {
        self.steps
    }
}

impl fmt::Display for Suite {
    fn fmt(&self, f: &mut fmt::Formatter) -> fmt::Result {
        write!(f, "{} with {} steps", self.cipher, self.steps)
    }
}
