//! Why a call is turned down.

use std::error::Error;
use std::fmt;

/// The cause of a refusal. Its value is the number that the library returns, 1 to 16; as text it is a
/// sentence for whoever made the call. [`ReceiptDiffers`] is this crate's own, and its number none of the
/// library's.
///
/// A call tests its causes in a fixed order and gives the first that applies. After a refusal all
/// that was lent is as it was before the call.
#[derive(Clone, Copy, Debug, PartialEq, Eq, Hash)]
#[repr(u32)]
#[non_exhaustive]
pub enum Refusal {
    /// The suite is none of the eight that are listed.
    SuiteNotListed = 1,
    /// The key has not 16 bytes.
    KeyLength = 2,
    /// The nonce has not 1 to 15 bytes.
    NonceLength = 3,
    /// The header is over its limit.
    HeaderTooLong = 4,
    /// The sealed bytes are under 16.
    SealedTooShort = 5,
    /// The text is over its limit.
    TextTooLong = 6,
    /// The output has no room for the result.
    OutputTooShort = 7,
    /// The tag is not the one of these bytes: something was changed, or the key is another.
    TagDiffers = 8,
    /// The writer has an unlisted suite, a place under 16 or past the buffer, a unit count over 16,777,215, or
    /// a call total over 1,024 for each unit and the close.
    WriterInvalid = 9,
    /// The writer is closed.
    WriterClosed = 10,
    /// A language code has a byte that is no letter a to z. [`Writer::add`](crate::Writer::add) hands a code that has
    /// not two bytes on as two zero bytes, which are no letters, so that it gets this too.
    LanguagesNotAllowed = 11,
    /// The source has not 1 to 4,096 bytes, or the target has more than 4,096.
    SegmentLength = 12,
    /// The book has 16,777,215 units already; one with numbers of two bytes never gets so far.
    TooManyUnits = 13,
    /// A field of the book has another tag or length than it must have there, also one of the other kind of
    /// book, or bytes are missing or left over.
    FieldMalformed = 14,
    /// A unit's number is not the running one, or the close's count is not the number of units; also where two
    /// bytes of a book from before version 0.3 cannot hold it.
    NumberOutOfOrder = 15,
    /// The book has no unit of this number.
    NoSuchUnit = 16,
    /// The bytes are accepted under the key, and do not have the numbers of the receipt: some were taken away,
    /// or book or receipt is another. The library does not give this; [`Book::check_receipt`](crate::Book::check_receipt)
    /// does.
    ReceiptDiffers = 1_001,
}

use Refusal::*;

/// Every refusal of the library, in the order of the numbers.
const LIBRARY: [Refusal; 16] = [
    SuiteNotListed,
    KeyLength,
    NonceLength,
    HeaderTooLong,
    SealedTooShort,
    TextTooLong,
    OutputTooShort,
    TagDiffers,
    WriterInvalid,
    WriterClosed,
    LanguagesNotAllowed,
    SegmentLength,
    TooManyUnits,
    FieldMalformed,
    NumberOutOfOrder,
    NoSuchUnit,
];

impl Refusal {
    /// The refusal's number: the library's, 1 to 16, and 1,001 for [`ReceiptDiffers`].
    pub fn number(self) -> u32 {
        self as u32
    }

    /// The refusal of this number.
    pub fn from_number(number: u32) -> Option<Refusal> {
        match number {
            1_001 => Some(ReceiptDiffers),
            _ => of_library(number),
        }
    }
}

impl fmt::Display for Refusal {
    fn fmt(&self, f: &mut fmt::Formatter) -> fmt::Result {
        f.write_str(match self {
            SuiteNotListed => {
                "the suite is not listed: Scream has 6, 8, 10 or 12 steps, iScream 8, 10, 12 or 14"
            }
            KeyLength => "the key does not have 16 bytes",
            NonceLength => "the nonce does not have 1 to 15 bytes",
            HeaderTooLong => "the header is longer than a nonce of this length allows",
            SealedTooShort => "the sealed bytes are fewer than the 16 of a tag",
            TextTooLong => "the text is longer than a nonce of this length allows",
            OutputTooShort => "the output has no room for the result",
            TagDiffers => "the tag differs: bytes were changed, or the key is another",
            WriterInvalid => "the writer is not valid, or its buffer is shorter than it was",
            WriterClosed => "the writer is closed already",
            LanguagesNotAllowed => "a language code has a byte that is no letter a to z",
            SegmentLength => {
                "the source does not have 1 to 4,096 bytes, or the target has more than 4,096"
            }
            TooManyUnits => "a book has no room for more than 16,777,215 units",
            FieldMalformed => {
                "not a whole book: a field is malformed, or bytes are missing or left over"
            }
            NumberOutOfOrder => {
                "a unit's number is not the running one, or the close's count is not that of the units"
            }
            NoSuchUnit => "the book has no unit of this number",
            ReceiptDiffers => "the book does not have the numbers of the receipt: bytes were taken away, or book or receipt is another",
        })
    }
}

impl Error for Refusal {}

/// The library's refusal of this number.
fn of_library(number: u32) -> Option<Refusal> {
    LIBRARY
        .into_iter()
        .find(|refusal| refusal.number() == number)
}

/// The library's answer: 0, or a refusal's number.
pub(crate) fn answer(number: u32) -> Result<(), Refusal> {
    if number == 0 {
        return Ok(());
    }
    match of_library(number) {
        Some(refusal) => Err(refusal),
        None => panic!("the library returned {number}, which is no refusal's number"),
    }
}

#[cfg(test)]
mod tests {
    use super::*;

    #[test]
    fn numbers_run_from_1_to_16() {
        assert_eq!(answer(0), Ok(()));
        for number in 1..=16 {
            let refusal = LIBRARY[number as usize - 1];
            assert_eq!(refusal.number(), number);
            assert_eq!(answer(number), Err(refusal));
        }
        assert_eq!(Refusal::from_number(0), None);
        assert_eq!(Refusal::from_number(17), None);
    }

    /// The crate's own refusal has a number, which the library cannot return.
    #[test]
    fn own_number() {
        assert_eq!(Refusal::from_number(1_001), Some(ReceiptDiffers));
        assert_eq!(ReceiptDiffers.number(), 1_001);
        assert!(std::panic::catch_unwind(|| answer(1_001)).is_err());
    }

    /// Each text is its own, begins small, and has no full stop, so that it can stand inside a sentence.
    #[test]
    fn texts_differ() {
        let all = LIBRARY.into_iter().chain([ReceiptDiffers]);
        for refusal in all.clone() {
            let text = refusal.to_string();
            assert!(text.starts_with(|letter: char| letter.is_ascii_lowercase()));
            assert!(!text.ends_with('.'));
            let same = all.clone().filter(|other| other.to_string() == text);
            assert_eq!(same.count(), 1, "{text}");
        }
    }
}
