//! A unit of a book, opened.

use std::fmt;
use std::str::{self, Utf8Error};

use crate::{raw, Refusal};

/// A unit that was fetched: a source, its target, and the languages of the two.
#[derive(Clone, PartialEq, Eq, Hash)]
#[non_exhaustive]
pub struct Unit {
    number: u64,
    from: raw::Code,
    to: raw::Code,
    /// The source, 1 to 4,096 bytes.
    pub source: Vec<u8>,
    /// The target, 0 to 4,096 bytes.
    pub target: Vec<u8>,
}

impl Unit {
    /// Its number in the book; the first one is unit 0.
    pub fn number(&self) -> u64 {
        self.number
    }

    /// The code of the source's language, as `en`.
    pub fn source_language(&self) -> &str {
        self.from.as_str()
    }

    /// The code of the target's language, which may be the source's.
    pub fn target_language(&self) -> &str {
        self.to.as_str()
    }

    /// The source as text.
    ///
    /// # Errors
    ///
    /// Where it is no UTF-8: a book may hold any bytes.
    pub fn source_text(&self) -> Result<&str, Utf8Error> {
        str::from_utf8(&self.source)
    }

    /// The target as text.
    ///
    /// # Errors
    ///
    /// Where it is no UTF-8.
    pub fn target_text(&self) -> Result<&str, Utf8Error> {
        str::from_utf8(&self.target)
    }

    /// Opens the unit of this number, whose fields in the book say this.
    pub(crate) fn open(
        key: &[u8; 16],
        book: &[u8],
        number: u64,
        fields: &raw::Unit,
    ) -> Result<Unit, Refusal> {
        let mut out = [0; raw::UNIT_MAX];
        let lengths = raw::fetch_at(key, book, number, fields.at, &mut out)?.lengths;
        let (source, rest) = out.split_at(lengths.source);
        Ok(Unit {
            number,
            from: fields.from,
            to: fields.to,
            source: source.to_vec(),
            target: rest[..lengths.target].to_vec(),
        })
    }
}

/// Shows how long source and target are, and not the texts.
impl fmt::Debug for Unit {
    fn fmt(&self, f: &mut fmt::Formatter) -> fmt::Result {
        f.debug_struct("Unit")
            .field("number", &self.number)
            .field("from", &self.from)
            .field("to", &self.to)
            .field("source_len", &self.source.len())
            .field("target_len", &self.target.len())
            .finish_non_exhaustive()
    }
}
