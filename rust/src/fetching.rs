//! Fetching from bytes that were not checked.

use crate::{raw, Refusal, Unit};

/// Fetches unit `k` from a book that was not checked as a whole. Walks to this one unit and opens nothing
/// else besides; [`Book::fetch`](crate::Book::fetch) is for one that was checked, and does not walk.
///
/// Both kinds of book are read, as by [`Book::check`](crate::Book::check).
///
/// What is tested then:
/// - the opening fields, and of each unit before `k` that it is framed as a unit, has the running number
///   and language codes of letters a to z;
/// - unit `k` in full: number, languages, source and target are such as a writer can have added under this
///   key to a book of this number and suite, as its unit `k`.
///
/// What is not:
/// - that its text was not made shorter on the way: without the key that can be done by who knows some of it, or
///   where two equal blocks of 16 bytes stand right before its last one. Only a [`Receipt`](crate::Receipt) of the
///   whole book shows it;
/// - the seals of the other units: what stands before `k` may have been changed, and what stands behind
///   it is not looked at;
/// - that the book is whole: its end may be missing. Only [`Refusal::NoSuchUnit`] is said after the close
///   was opened and found to be the last thing in the book.
///
/// # Errors
///
/// The first of these that applies, in the order of the bytes: [`Refusal::FieldMalformed`] of the opening
/// fields; [`Refusal::SuiteNotListed`]; of each unit up to `k` [`Refusal::FieldMalformed`] of its header,
/// [`Refusal::TooManyUnits`], [`Refusal::NumberOutOfOrder`], [`Refusal::LanguagesNotAllowed`] and
/// [`Refusal::FieldMalformed`] of the rest; of unit `k` then [`Refusal::TagDiffers`], and
/// [`Refusal::SegmentLength`] for what no writer makes. Where the close comes before unit `k`:
/// [`Refusal::FieldMalformed`], [`Refusal::NumberOutOfOrder`] and [`Refusal::TagDiffers`] of the close,
/// [`Refusal::FieldMalformed`] for bytes behind it, and else [`Refusal::NoSuchUnit`].
///
/// ```
/// use sealed_book::{fetch, Refusal, Suite, Writer};
///
/// # fn main() -> Result<(), Box<dyn std::error::Error>> {
/// # let key = [7; 16];
/// let mut writer = Writer::start(Suite::SCREAM_10, &key, 7)?;
/// writer.add("en", "de", "valve", "Ventil")?;
/// let (book, _) = writer.close()?;
///
/// let unit = fetch(&key, &book, 0)?;
/// assert_eq!((unit.source_language(), unit.source_text()?), ("en", "valve"));
/// assert_eq!((unit.target_language(), unit.target_text()?), ("de", "Ventil"));
/// assert_eq!(fetch(&key, &book, 1), Err(Refusal::NoSuchUnit));
/// assert_eq!(fetch(&[8; 16], &book, 0), Err(Refusal::TagDiffers));
/// # Ok(())
/// # }
/// ```
pub fn fetch(key: &[u8; 16], book: &[u8], k: u64) -> Result<Unit, Refusal> {
    match raw::unit(book, k) {
        Ok(fields) => Unit::open(key, book, k, &fields),
        // the close was met: its seal is tested still, and that nothing stands behind it
        Err(Refusal::NoSuchUnit) => match raw::fetch(key, book, k, &mut []) {
            Err(refusal) => Err(refusal),
            Ok(_) => Err(Refusal::NoSuchUnit),
        },
        Err(refusal) => Err(refusal),
    }
}
