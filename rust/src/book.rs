//! A book that was checked.

use std::fmt;
use std::iter::FusedIterator;
use std::sync::OnceLock;

use crate::secret::Secret;
use crate::{info, raw, Info, Receipt, Refusal, Suite, Unit};

/// A book that was checked as a whole, with its key and its bytes: `B` is a `Vec<u8>`, a `&[u8]`, an
/// `Arc<[u8]>`, or whatever else lends bytes.
///
/// That there is a `Book` says that a [`Writer`](crate::Writer) under this key can have left these bytes, from the
/// first to the last, and that nothing stands behind the close: a writer of this version, or one of before 0.3, taken
/// with this version's rule for language codes. As far as ciphers and mode are strong, no unit is missing, doubled,
/// moved or exchanged.
///
/// That a writer did leave them it does not say: without the key, a unit can be made shorter by who knows some of
/// its text, or where two equal blocks of 16 bytes stand right before its last one. A [`Receipt`] from the book's
/// maker shows that, and [`check_receipt`](Book::check_receipt) takes it.
///
/// The key is copied, and the copy cleared when the book is dropped.
///
/// # Time and memory
///
/// Where its units begin is noted by one walk over the book, when [`fetch`](Book::fetch) or
/// [`ciphertext`](Book::ciphertext) is first called. It takes 8 bytes a unit. Each fetch then takes the
/// time of its own unit, wherever that stands. [`iter`](Book::iter) goes from one unit to the next and notes
/// nothing.
///
/// # Bytes that change
///
/// `B` has to lend the same bytes whenever it is asked, as vectors, slices and the pointers of the standard
/// library do. One that lends others later makes the book's answers those of the bytes that it lends then:
/// a fetch hands out a unit only where its seal is right under this key, and else refuses, by any refusal
/// that [`fetch`](crate::fetch()) can give. It does not panic, and nothing outside the bytes is read.
///
/// ```
/// use sealed_book::{Book, Suite, Unit, Writer};
///
/// # fn main() -> Result<(), sealed_book::Refusal> {
/// # let key = [7; 16];
/// let mut writer = Writer::start(Suite::SCREAM_10, &key, 7)?;
/// writer.add("en", "de", "valve", "Ventil")?;
/// writer.add("en", "de", "pump", "Pumpe")?;
/// let (bytes, receipt) = writer.close()?;
///
/// let book = Book::check_receipt(&key, bytes, &receipt)?;
/// assert_eq!((book.number(), book.suite(), book.len()), (7, Suite::SCREAM_10, 2));
/// assert_eq!(book.fetch(1)?.source, b"pump");
/// let units: Vec<Unit> = book.iter().collect::<Result<_, _>>()?;
/// assert_eq!(units[0].target, b"Ventil");
/// # Ok(())
/// # }
/// ```
#[derive(Clone)]
pub struct Book<B> {
    key: Secret<16>,
    bytes: B,
    info: Info,
    /// Of the bytes as they were checked.
    receipt: Receipt,
    /// Where each unit begins, once that was asked for; a refusal where the bytes are not those that were
    /// checked.
    places: OnceLock<Result<Box<[usize]>, Refusal>>,
}

impl<B: AsRef<[u8]>> Book<B> {
    /// Checks the bytes as a whole book under this key. Every unit is opened, and none kept. Lend `&bytes` to keep
    /// them after a refusal.
    ///
    /// A book is of one of two kinds: with unit numbers of four bytes, as [`Writer`](crate::Writer) makes it, or of
    /// two, from a version before 0.3, and then it has at most 65,535 units. The byte behind the opening fields says
    /// which. Language codes are letters a to z in both. The two of a unit may be the same in both, too, though
    /// versions before 0.4 wrote no such unit.
    ///
    /// # Errors
    ///
    /// The first of these that applies, in the order of the bytes: [`Refusal::FieldMalformed`] of the
    /// opening fields; [`Refusal::SuiteNotListed`]; of each unit [`Refusal::FieldMalformed`] of its header,
    /// [`Refusal::TooManyUnits`], [`Refusal::NumberOutOfOrder`], [`Refusal::LanguagesNotAllowed`],
    /// [`Refusal::FieldMalformed`] of the rest, [`Refusal::TagDiffers`], and [`Refusal::SegmentLength`] for
    /// what no writer makes; of the close [`Refusal::FieldMalformed`], [`Refusal::NumberOutOfOrder`],
    /// [`Refusal::TagDiffers`], and [`Refusal::FieldMalformed`] for bytes behind it. A field of the other kind is
    /// malformed; and numbers of two bytes are out of order past 65,535, so that [`Refusal::TooManyUnits`] is of the
    /// newer kind only.
    pub fn check(key: &[u8; 16], bytes: B) -> Result<Book<B>, Refusal> {
        let lent = bytes.as_ref();
        let raw::Checked { units, calls } = raw::check(key, lent)?;
        let receipt = Receipt {
            bytes: lent.len() as u64,
            units,
            calls,
        };
        let info = info(lent)?;
        Ok(Book {
            key: Secret(*key),
            bytes,
            info,
            receipt,
            places: OnceLock::new(),
        })
    }

    /// Checks the bytes as [`check`](Book::check) does, and then that length, units and calls are those of the
    /// receipt, which has come from the book's maker another way than the bytes. It does not tell books apart that
    /// have the same three numbers: compare [`number`](Book::number) with the one that you expect. [`Receipt`] has
    /// an example.
    ///
    /// # Errors
    ///
    /// Those of [`check`](Book::check), whatever the receipt; then [`Refusal::ReceiptDiffers`] where one of
    /// the receipt's three numbers is another than the book's. Of a book that was only checked,
    /// [`receipt`](Book::receipt) says which.
    pub fn check_receipt(key: &[u8; 16], bytes: B, receipt: &Receipt) -> Result<Book<B>, Refusal> {
        let book = Book::check(key, bytes)?;
        if book.receipt != *receipt {
            return Err(Refusal::ReceiptDiffers);
        }
        Ok(book)
    }

    /// The suite it is sealed under.
    pub fn suite(&self) -> Suite {
        self.info.suite
    }

    /// Its number.
    pub fn number(&self) -> u64 {
        self.info.number
    }

    /// How many units it has, 0 to 16,777,215.
    pub fn len(&self) -> u64 {
        self.receipt.units
    }

    /// Whether it has no units.
    pub fn is_empty(&self) -> bool {
        self.len() == 0
    }

    /// How many calls of the cipher writing these bytes takes.
    pub fn calls(&self) -> u64 {
        self.receipt.calls
    }

    /// The receipt of these bytes, to be compared with the one that their maker has.
    pub fn receipt(&self) -> Receipt {
        self.receipt
    }

    /// Its bytes.
    pub fn bytes(&self) -> &[u8] {
        self.bytes.as_ref()
    }

    /// Gives back what [`check`](Book::check) has taken.
    pub fn into_bytes(self) -> B {
        self.bytes
    }

    /// Opens unit `k`; the first one is unit 0.
    ///
    /// # Errors
    ///
    /// [`Refusal::NoSuchUnit`] where `k` is not below [`len`](Book::len).
    pub fn fetch(&self, k: u64) -> Result<Unit, Refusal> {
        let bytes = self.bytes();
        Unit::open(&self.key.0, bytes, k, &self.fields(bytes, k)?)
    }

    /// The ciphertext of unit `k`, unopened, as a part of the book's bytes; `None` where `k` is not below
    /// [`len`](Book::len). It has two bytes more than source and target together.
    pub fn ciphertext(&self, k: u64) -> Option<&[u8]> {
        let bytes = self.bytes();
        let fields = self.fields(bytes, k).ok()?;
        Some(&bytes[fields.ciphertext])
    }

    /// Compares a typed sentence, also an empty one, with every unit: a page to be printed, with one row a unit in
    /// the order of the book. A row is the length of the source in bytes, right-aligned in 5 columns, two blanks,
    /// the [`score`](crate::score()) of the source and the typed sentence, right-aligned in 4 columns, and a line
    /// feed.
    ///
    /// The whole book is checked once more, and then each source is opened, one after the other, in time linear in
    /// the book's length; a typed sentence of over 4,096 bytes is gone over once for each unit. The page takes 12
    /// bytes a unit.
    ///
    /// # Errors
    ///
    /// None where the bytes are those that were checked. Where `B` lends others now (above): a refusal of
    /// [`check`](Book::check) where they are no book under this key; [`Refusal::OutputTooShort`] where they are one
    /// with more units; and else the page is that of the book that they are.
    ///
    /// ```
    /// use sealed_book::{Book, Suite, Writer};
    ///
    /// # fn main() -> Result<(), sealed_book::Refusal> {
    /// # let key = [7; 16];
    /// let mut writer = Writer::start(Suite::SCREAM_10, &key, 7)?;
    /// writer.add("en", "de", "valve", "Ventil")?;
    /// writer.add("en", "de", "Close the two valves.", "")?;
    /// let (bytes, receipt) = writer.close()?;
    ///
    /// let book = Book::check_receipt(&key, bytes, &receipt)?;
    /// assert_eq!(book.page("valves")?, "    5   857\n   21   347\n");
    /// assert_eq!(book.page("")?, "    5     0\n   21     0\n");
    /// # Ok(())
    /// # }
    /// ```
    pub fn page(&self, typed: impl AsRef<[u8]>) -> Result<String, Refusal> {
        let rows = usize::try_from(self.len()).expect("at most 16,777,215");
        let mut page = vec![0; raw::ROW_LEN * rows];
        let len = raw::page(&self.key.0, self.bytes(), typed.as_ref(), &mut page)?;
        page.truncate(len);
        Ok(String::from_utf8(page).expect("digits, blanks and line feeds"))
    }

    /// All units in order, each opened when its turn comes, in time linear in the book's length.
    pub fn iter(&self) -> Units<'_> {
        Units {
            key: &self.key,
            bytes: self.bytes(),
            next: 0,
            units: self.len(),
            at: raw::FIRST_UNIT,
        }
    }

    /// What the fields of unit `k` say, which stand at the place that is noted.
    fn fields(&self, bytes: &[u8], k: u64) -> Result<raw::Unit, Refusal> {
        if k >= self.len() {
            return Err(Refusal::NoSuchUnit);
        }
        let places = self.places.get_or_init(|| places(bytes, self.len()));
        let places = places.as_ref().map_err(|refusal| *refusal)?;
        let place = usize::try_from(k).ok().and_then(|k| places.get(k));
        raw::unit_at(bytes, k, *place.ok_or(Refusal::NoSuchUnit)?)
    }
}

/// Where each of so many units begins.
fn places(book: &[u8], units: u64) -> Result<Box<[usize]>, Refusal> {
    let mut places = Vec::with_capacity(usize::try_from(units).unwrap_or(0));
    let mut at = raw::FIRST_UNIT;
    for number in 0..units {
        places.push(at);
        at = raw::unit_at(book, number, at)?.next;
    }
    Ok(places.into_boxed_slice())
}

/// Does not show the key.
impl<B> fmt::Debug for Book<B> {
    fn fmt(&self, f: &mut fmt::Formatter) -> fmt::Result {
        f.debug_struct("Book")
            .field("suite", &self.info.suite)
            .field("number", &self.info.number)
            .field("units", &self.receipt.units)
            .field("calls", &self.receipt.calls)
            .finish_non_exhaustive()
    }
}

impl<'b, B: AsRef<[u8]>> IntoIterator for &'b Book<B> {
    type Item = Result<Unit, Refusal>;
    type IntoIter = Units<'b>;

    fn into_iter(self) -> Units<'b> {
        self.iter()
    }
}

/// The units of a book in order; [`Book::iter`] makes it.
///
/// Since the book was checked and its bytes are lent, each is `Ok`. The bytes must not change while they
/// are lent, as those of a mapped file could.
#[derive(Clone)]
pub struct Units<'b> {
    key: &'b Secret<16>,
    bytes: &'b [u8],
    /// The next unit's number, and how many there are.
    next: u64,
    units: u64,
    /// Where the next unit begins.
    at: usize,
}

impl Units<'_> {
    /// Opens the next unit, and goes behind it.
    fn open(&mut self) -> Result<Unit, Refusal> {
        let fields = raw::unit_at(self.bytes, self.next, self.at)?;
        let unit = Unit::open(&self.key.0, self.bytes, self.next, &fields)?;
        self.at = fields.next;
        Ok(unit)
    }
}

/// Does not show the key.
impl fmt::Debug for Units<'_> {
    fn fmt(&self, f: &mut fmt::Formatter) -> fmt::Result {
        f.debug_struct("Units")
            .field("next", &self.next)
            .field("units", &self.units)
            .finish_non_exhaustive()
    }
}

impl Iterator for Units<'_> {
    type Item = Result<Unit, Refusal>;

    fn next(&mut self) -> Option<Result<Unit, Refusal>> {
        if self.next == self.units {
            return None;
        }
        let unit = self.open();
        self.next = match unit {
            Ok(_) => self.next + 1,
            Err(_) => self.units,
        };
        Some(unit)
    }

    fn size_hint(&self) -> (usize, Option<usize>) {
        let left = usize::try_from(self.units - self.next).expect("at most 16,777,215");
        (left, Some(left))
    }
}

impl ExactSizeIterator for Units<'_> {}

impl FusedIterator for Units<'_> {}

#[cfg(test)]
mod tests {
    use super::*;
    use crate::Writer;

    /// A refusal, which no book that was checked gives, is the last item.
    #[test]
    fn ends_at_a_refusal() {
        let key = [1; 16];
        let mut writer = Writer::start(Suite::SCREAM_6, &key, 5).unwrap();
        for source in ["one", "two", "three"] {
            writer.add("en", "de", source, "").unwrap();
        }
        let (bytes, _) = writer.close().unwrap();
        let book = Book::check(&key, &bytes).unwrap();

        // the last byte of unit 1's tag
        let mut changed = bytes.clone();
        changed[raw::unit(&bytes, 1).unwrap().next - 1] ^= 1;
        let book = Book {
            bytes: &changed,
            ..book.clone()
        };
        let mut units = book.iter();
        assert_eq!(units.next().unwrap().unwrap().source, b"one");
        assert_eq!(units.len(), 2);
        assert_eq!(units.next(), Some(Err(Refusal::TagDiffers)));
        assert_eq!(units.len(), 0);
        assert_eq!(units.next(), None);
        assert_eq!(units.next(), None);
    }
}
