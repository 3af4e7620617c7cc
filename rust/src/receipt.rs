//! What the maker of a book sends beside it, so that whoever receives it sees that none of it was taken
//! away.

use std::error::Error;
use std::fmt;
use std::str::FromStr;

/// Three numbers of a book that was closed. [`Writer::close`](crate::Writer::close) gives them, and
/// [`Book::check_receipt`](crate::Book::check_receipt) holds a book to them.
///
/// # What it is for
///
/// The mode of version 1 does not seal how long a text is. Without the key, who knows some of the text of a unit
/// (16 bytes can be enough) can take blocks right before its last one away and set the last one right, so that
/// [`Book::check`](crate::Book::check) accepts the book with a shorter unit in it; where two such blocks are
/// equal, as in a row of dots, the text need not even be known. docs/SECURITY.md in the repository says when this
/// can be done. It makes the book shorter and its calls of the cipher fewer, so that its receipt is another one.
///
/// Send the receipt another way than the book: one on which nobody can change it who can change the book. It
/// is no secret, since the bytes of a book show as much to anyone. It does not say which book it is: another
/// book under the key with the same three numbers has the same receipt. Compare the book number too.
///
/// # As text
///
/// `bytes=88 units=1 calls=7`: these three words in this order, each a name, `=` and decimal digits. Reading
/// takes any white space before, between and behind them, as where a mail has broken the line, and nothing
/// else.
///
/// ```
/// use sealed_book::{Book, Receipt, Refusal, Suite, Writer};
///
/// # fn main() -> Result<(), Box<dyn std::error::Error>> {
/// # let key = [7; 16];
/// // who makes the book sends the bytes one way, and this text another
/// let mut writer = Writer::start(Suite::SCREAM_10, &key, 7)?;
/// writer.add("en", "de", "valve", "Ventil")?;
/// let (bytes, receipt) = writer.close()?;
/// let mail = receipt.to_string();
/// assert_eq!(mail, "bytes=88 units=1 calls=7");
///
/// // who receives both
/// let receipt: Receipt = mail.parse()?;
/// let book = Book::check_receipt(&key, bytes, &receipt)?;
/// assert_eq!(book.fetch(0)?.target_text()?, "Ventil");
///
/// // a whole book under this key, with other numbers than the receipt's
/// let (other, _) = Writer::start(Suite::SCREAM_10, &key, 8)?.close()?;
/// let answer = Book::check_receipt(&key, other, &receipt);
/// assert_eq!(answer.err(), Some(Refusal::ReceiptDiffers));
/// # Ok(())
/// # }
/// ```
#[derive(Clone, Copy, Debug, PartialEq, Eq, Hash)]
pub struct Receipt {
    /// How many bytes the book has.
    pub bytes: u64,
    /// How many units it has.
    pub units: u64,
    /// How many calls of the cipher writing these bytes takes.
    pub calls: u64,
}

/// As `bytes=88 units=1 calls=7`.
impl fmt::Display for Receipt {
    fn fmt(&self, f: &mut fmt::Formatter) -> fmt::Result {
        let Receipt {
            bytes,
            units,
            calls,
        } = self;
        write!(f, "bytes={bytes} units={units} calls={calls}")
    }
}

impl FromStr for Receipt {
    type Err = ParseReceiptError;

    fn from_str(text: &str) -> Result<Receipt, ParseReceiptError> {
        let mut words = text.split_whitespace();
        let mut number = |name| words.next().and_then(|word| number(word, name));
        let receipt = Receipt {
            bytes: number("bytes").ok_or(ParseReceiptError(()))?,
            units: number("units").ok_or(ParseReceiptError(()))?,
            calls: number("calls").ok_or(ParseReceiptError(()))?,
        };
        match words.next() {
            None => Ok(receipt),
            Some(_) => Err(ParseReceiptError(())),
        }
    }
}

/// The number behind this name and `=`.
fn number(word: &str, name: &str) -> Option<u64> {
    let digits = word.strip_prefix(name)?.strip_prefix('=')?;
    let is_number = digits.bytes().all(|byte| byte.is_ascii_digit());
    is_number.then(|| digits.parse().ok()).flatten()
}

/// A text that is not a receipt's.
#[derive(Clone, Copy, Debug, PartialEq, Eq, Hash)]
pub struct ParseReceiptError(());

impl fmt::Display for ParseReceiptError {
    fn fmt(&self, f: &mut fmt::Formatter) -> fmt::Result {
        f.write_str("not a receipt, which is a line as \"bytes=88 units=1 calls=7\"")
    }
}

impl Error for ParseReceiptError {}
