//! What a book says in the clear, for those who do not have its key.

use std::fmt;

use crate::{raw, Refusal, Suite};

/// What the opening fields of a book say; [`info`] gives it.
#[derive(Clone, Copy, Debug, PartialEq, Eq, Hash)]
#[non_exhaustive]
pub struct Info {
    /// The suite it is sealed under.
    pub suite: Suite,
    /// Its number.
    pub number: u64,
}

/// Suite and number of a book, without its key. Nothing behind the opening fields is looked at.
///
/// **No seal is tested**: these are the bytes that stand there, whoever has put them there.
///
/// # Errors
///
/// The first of these that applies: [`Refusal::FieldMalformed`] of the opening fields,
/// [`Refusal::SuiteNotListed`].
///
/// ```
/// use sealed_book::{info, Suite, Writer};
///
/// # fn main() -> Result<(), sealed_book::Refusal> {
/// # let key = [7; 16];
/// let (book, _) = Writer::start(Suite::SCREAM_10, &key, 7)?.close()?;
/// let info = info(&book)?;
/// assert_eq!((info.suite, info.number), (Suite::SCREAM_10, 7));
/// # Ok(())
/// # }
/// ```
pub fn info(book: &[u8]) -> Result<Info, Refusal> {
    let raw::Info {
        cipher,
        steps,
        number,
    } = raw::info(book)?;
    let suite = Suite::from_bytes([cipher, steps])?;
    Ok(Info { suite, number })
}

/// What a unit says in the clear: its number, its languages, and its ciphertext as a part of the book's
/// bytes; [`clear_unit`] gives it.
#[derive(Clone, PartialEq, Eq, Hash)]
pub struct ClearUnit<'a> {
    number: u64,
    from: raw::Code,
    to: raw::Code,
    ciphertext: &'a [u8],
}

impl<'a> ClearUnit<'a> {
    /// Its number in the book; the first one is unit 0.
    pub fn number(&self) -> u64 {
        self.number
    }

    /// The code of the source's language, as `en`.
    pub fn source_language(&self) -> &str {
        self.from.as_str()
    }

    /// The code of the target's language, which may be the source's.
    pub fn target_language(&self) -> &str {
        self.to.as_str()
    }

    /// Its ciphertext, which has two bytes more than source and target together.
    pub fn ciphertext(&self) -> &'a [u8] {
        self.ciphertext
    }
}

/// Shows how long the ciphertext is, and not its bytes.
impl fmt::Debug for ClearUnit<'_> {
    fn fmt(&self, f: &mut fmt::Formatter) -> fmt::Result {
        f.debug_struct("ClearUnit")
            .field("number", &self.number)
            .field("from", &self.from)
            .field("to", &self.to)
            .field("ciphertext_len", &self.ciphertext.len())
            .finish_non_exhaustive()
    }
}

/// What unit `k` says in the clear, without the book's key. It is found by a walk over the units before
/// it; [`raw::unit_at`] goes from one unit to the next.
///
/// **No seal is tested**: these are the bytes that stand there, whoever has put them there.
///
/// # Errors
///
/// The first of these that applies, in the order of the bytes: [`Refusal::FieldMalformed`] of the opening
/// fields; [`Refusal::SuiteNotListed`]; of each unit up to `k` [`Refusal::FieldMalformed`] of its header,
/// [`Refusal::TooManyUnits`], [`Refusal::NumberOutOfOrder`], [`Refusal::LanguagesNotAllowed`] and
/// [`Refusal::FieldMalformed`] of the rest. Where the close comes before unit `k`:
/// [`Refusal::FieldMalformed`] and [`Refusal::NumberOutOfOrder`] of the close, and else
/// [`Refusal::NoSuchUnit`].
///
/// ```
/// use sealed_book::{clear_unit, Refusal, Suite, Writer};
///
/// # fn main() -> Result<(), Refusal> {
/// # let key = [7; 16];
/// let mut writer = Writer::start(Suite::SCREAM_10, &key, 7)?;
/// writer.add("en", "de", "valve", "Ventil")?;
/// let (book, _) = writer.close()?;
///
/// let unit = clear_unit(&book, 0)?;
/// assert_eq!((unit.source_language(), unit.target_language()), ("en", "de"));
/// assert_eq!(unit.ciphertext().len(), 2 + "valve".len() + "Ventil".len());
/// assert_eq!(clear_unit(&book, 1), Err(Refusal::NoSuchUnit));
/// # Ok(())
/// # }
/// ```
pub fn clear_unit(book: &[u8], k: u64) -> Result<ClearUnit<'_>, Refusal> {
    let unit = raw::unit(book, k)?;
    Ok(ClearUnit {
        number: k,
        from: unit.from,
        to: unit.to,
        ciphertext: &book[unit.ciphertext],
    })
}

/// The ciphertext of unit `k`, unopened, as a part of the bytes that were given; `None` where
/// [`clear_unit`] would refuse. No key is needed, and no seal is tested.
///
/// ```
/// use sealed_book::{ciphertext, Suite, Writer};
///
/// # fn main() -> Result<(), sealed_book::Refusal> {
/// # let key = [7; 16];
/// let mut writer = Writer::start(Suite::SCREAM_10, &key, 7)?;
/// writer.add("en", "de", "valve", "Ventil")?;
/// let (book, _) = writer.close()?;
///
/// assert_eq!(ciphertext(&book, 0).map(<[u8]>::len), Some(2 + "valve".len() + "Ventil".len()));
/// assert_eq!(ciphertext(&book, 1), None);
/// # Ok(())
/// # }
/// ```
pub fn ciphertext(book: &[u8], k: u64) -> Option<&[u8]> {
    let place = raw::ciphertext(book, k);
    (!place.is_empty()).then(|| &book[place])
}
