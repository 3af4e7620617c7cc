//! The writer of a book.

use std::fmt;
use std::mem;

use crate::secret::Secret;
use crate::{raw, Receipt, Refusal, Suite};

/// How many bytes of memory a writer starts with.
const FIRST: usize = 1_024;

/// Writes a book: starts it, adds units, at most 16,777,215, and closes it. The bytes are kept in memory, in a
/// buffer that doubles when it is full.
///
/// A refused call leaves the writer as it was, and it can go on.
///
/// Unit numbers have four bytes in the book. Versions of this crate before 0.3 wrote two, and do not read what this
/// one writes; their books are read still.
///
/// The two language codes of a unit may be the same. Versions before 0.4 refuse a book with such a unit.
///
/// # One book number, one book
///
/// Under one key a book number must never be used twice, not for two books and not for two versions of
/// one: units of the same place would be sealed under the same tweaks, show where they agree, and could be
/// exchanged. For the same reason a writer cannot be cloned.
///
/// # The key
///
/// A writer holds the key until it is closed or dropped, and then clears it. Copies that a move of the
/// writer or a call of the library has left on the stack are not cleared.
///
/// ```
/// use sealed_book::{raw, Refusal, Suite, Writer};
///
/// # fn main() -> Result<(), Refusal> {
/// # let key = [7; 16];
/// let mut writer = Writer::start(Suite::SCREAM_10, &key, 7)?;
/// assert_eq!(writer.add("en", "de", "valve", "Ventil"), Ok(0));
/// // a code in capitals
/// assert_eq!(writer.add("EN", "de", "valve", "Ventil"), Err(Refusal::LanguagesNotAllowed));
/// // the same code twice: English that is rewritten in a controlled English
/// let (source, target) = ("Depress the lever.", "Push the lever.");
/// assert_eq!(writer.add("en", "en", source, target), Ok(1));
/// let (book, receipt) = writer.close()?;
/// assert_eq!(book.len(), raw::book_room(2, "valveVentil".len() + source.len() + target.len()));
/// assert_eq!(receipt.to_string(), "bytes=156 units=2 calls=13");
/// # Ok(())
/// # }
/// ```
pub struct Writer {
    /// The 64 bytes that the library has for a writer. It is open, and of the buffer.
    bytes: Secret<{ raw::LEN }>,
    /// The book up to the writer's place, and zeros.
    buffer: Vec<u8>,
}

impl Writer {
    /// Starts a book with this number, which is new under this key.
    ///
    /// # Errors
    ///
    /// No refusal can occur: the suite is listed, and the key has its length.
    pub fn start(suite: Suite, key: &[u8; 16], number: u64) -> Result<Writer, Refusal> {
        Writer::with_capacity(suite, key, number, FIRST)
    }

    /// The same, with memory for a book of so many bytes, which [`raw::book_room`] gives. A longer book can
    /// still be written.
    ///
    /// # Errors
    ///
    /// As [`start`](Writer::start).
    pub fn with_capacity(
        suite: Suite,
        key: &[u8; 16],
        number: u64,
        capacity: usize,
    ) -> Result<Writer, Refusal> {
        let mut writer = Writer {
            bytes: Secret([0; raw::LEN]),
            buffer: vec![0; capacity.max(raw::FIRST_UNIT)],
        };
        let [cipher, steps] = suite.to_bytes();
        let Writer { bytes, buffer } = &mut writer;
        raw::start(cipher, steps, key, number, buffer, &mut bytes.0)?;
        Ok(writer)
    }

    /// Adds a unit: a source in the language `from` and its target in the language `to`. Returns its
    /// number; the first one is unit 0.
    ///
    /// A code is two letters a to z. The two codes may be the same, as where English is rewritten in a controlled
    /// English; where that would be a mistake, compare them before the call. They stand in the book in clear;
    /// source and target are sealed, and only their length in bytes together is seen. Both may be any bytes; a
    /// target may be empty.
    ///
    /// # Errors
    ///
    /// The first of these that applies:
    /// - [`Refusal::LanguagesNotAllowed`] where a byte of a code is no letter a to z; a code that has not two bytes
    ///   is handed on as two zero bytes, which are no letters;
    /// - [`Refusal::SegmentLength`] where the source has not 1 to 4,096 bytes or the target more than 4,096;
    /// - [`Refusal::TooManyUnits`] where there are 16,777,215 already, [`raw::UNITS_MAX`].
    pub fn add(
        &mut self,
        from: &str,
        to: &str,
        source: impl AsRef<[u8]>,
        target: impl AsRef<[u8]>,
    ) -> Result<u64, Refusal> {
        let number = self.units();
        let (from, to) = (code(from), code(to));
        let (source, target) = (source.as_ref(), target.as_ref());
        self.with_room(|writer, buffer| raw::add(writer, buffer, &from, &to, source, target))?;
        Ok(number)
    }

    /// Closes the book and returns its bytes, and the receipt of them: who gets it another way than the bytes
    /// sees by it whether some were taken away.
    ///
    /// # Errors
    ///
    /// No refusal can occur: the writer is open, and its buffer grows.
    pub fn close(mut self) -> Result<(Vec<u8>, Receipt), Refusal> {
        self.with_room(raw::close)?;
        let receipt = Receipt {
            bytes: raw::place(&self.bytes.0),
            units: self.units(),
            calls: self.calls(),
        };
        let len = self.len();
        let mut book = mem::take(&mut self.buffer);
        book.truncate(len);
        Ok((book, receipt))
    }

    /// How many units are added.
    pub fn units(&self) -> u64 {
        raw::units(&self.bytes.0)
    }

    /// How many calls of the cipher they have taken. The close will take three more.
    pub fn calls(&self) -> u64 {
        raw::calls(&self.bytes.0)
    }

    /// How many bytes are written, [`raw::FIRST_UNIT`] at least.
    #[allow(clippy::len_without_is_empty)]
    pub fn len(&self) -> usize {
        usize::try_from(raw::place(&self.bytes.0)).expect("within the buffer")
    }

    /// The bytes that are written: the book without its close, and without the units still to come.
    pub fn written(&self) -> &[u8] {
        &self.buffer[..self.len()]
    }

    /// Makes the call, and again with twice the buffer as long as it is refused for want of room. That
    /// cause is tested last: the buffer only grows for a call that will be accepted.
    fn with_room(
        &mut self,
        call: impl Fn(&mut raw::Bytes, &mut [u8]) -> Result<(), Refusal>,
    ) -> Result<(), Refusal> {
        loop {
            match call(&mut self.bytes.0, &mut self.buffer) {
                Err(Refusal::OutputTooShort) => self.buffer.resize(2 * self.buffer.len(), 0),
                answer => return answer,
            }
        }
    }
}

/// Does not show the key.
impl fmt::Debug for Writer {
    fn fmt(&self, f: &mut fmt::Formatter) -> fmt::Result {
        f.debug_struct("Writer")
            .field("units", &self.units())
            .field("calls", &self.calls())
            .field("len", &self.len())
            .finish_non_exhaustive()
    }
}

/// The two bytes of a language code; for one of another length two zeros, which are no letters, so that
/// the library refuses it where it refuses a code.
fn code(code: &str) -> [u8; 2] {
    code.as_bytes().try_into().unwrap_or([0; 2])
}
