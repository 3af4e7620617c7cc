//! What a book says in the clear. No key is needed, and no seal is tested: that it is a writer's is known
//! only once the book was checked, or the unit fetched.

use std::ops::Range;

use super::{Code, CODE_ROOM};
use crate::{foreign, refusal, Refusal};

/// What the opening fields of a book say.
#[derive(Clone, Copy, Debug, PartialEq, Eq)]
pub struct Info {
    /// The suite's cipher: 1 Scream, 2 iScream.
    pub cipher: u8,
    /// The suite's number of steps.
    pub steps: u8,
    /// The book's number.
    pub number: u64,
}

/// Suite and book number. No key is needed, and no seal is tested.
#[inline]
pub fn info(book: &[u8]) -> Result<Info, Refusal> {
    let (mut cipher, mut steps, mut number) = (0, 0, 0);
    // SAFETY: the book is given with its length, and only the three numbers are written.
    let refused = unsafe {
        foreign::sb_info(
            book.as_ptr(),
            book.len(),
            &mut cipher,
            &mut steps,
            &mut number,
        )
    };
    refusal::answer(refused)?;
    Ok(Info {
        cipher,
        steps,
        number,
    })
}

/// What the fields of a unit say in the clear.
#[derive(Clone, Debug, PartialEq, Eq)]
pub struct Unit {
    /// Where its fields begin in the book.
    pub at: usize,
    /// The source's language.
    pub from: Code,
    /// The target's language, which may be the source's.
    pub to: Code,
    /// Where its ciphertext stands in the book.
    pub ciphertext: Range<usize>,
    /// Where the next unit begins, or the close.
    pub next: usize,
}

/// What the library writes of a unit.
#[derive(Default)]
struct Written {
    from: [u8; CODE_ROOM],
    from_len: u64,
    to: [u8; CODE_ROOM],
    to_len: u64,
    ciphertext_at: u64,
    ciphertext_len: u64,
    next: u64,
}

/// Where the library writes what it says of a unit, in the order of its parameters.
type Pointers = (
    *mut u8,
    *mut u64,
    *mut u8,
    *mut u64,
    *mut u64,
    *mut u64,
    *mut u64,
);

impl Written {
    fn pointers(&mut self) -> Pointers {
        (
            self.from.as_mut_ptr(),
            &mut self.from_len,
            self.to.as_mut_ptr(),
            &mut self.to_len,
            &mut self.ciphertext_at,
            &mut self.ciphertext_len,
            &mut self.next,
        )
    }

    /// The unit whose fields begin at this place.
    fn unit(self, at: usize) -> Unit {
        let [start, len, next] =
            [self.ciphertext_at, self.ciphertext_len, self.next].map(within_the_book);
        Unit {
            at,
            from: Code::new(self.from, self.from_len),
            to: Code::new(self.to, self.to_len),
            ciphertext: start..start + len,
            next,
        }
    }
}

/// A place or a length that the library has given.
pub(super) fn within_the_book(place: u64) -> usize {
    usize::try_from(place).expect("within the book")
}

/// The unit of this number, whose fields begin at byte `at` of the book; unit 0 begins at
/// [`FIRST_UNIT`](super::FIRST_UNIT). Any place may be given. No key is needed, and no seal is tested.
#[inline]
pub fn unit_at(book: &[u8], number: u64, at: usize) -> Result<Unit, Refusal> {
    let mut written = Written::default();
    let (from, from_len, to, to_len, part, part_len, next) = written.pointers();
    let (start, len) = (book.as_ptr(), book.len());
    // SAFETY: the book is given with its length, each code has its room, and only the codes and the numbers
    // are written.
    let refused = unsafe {
        foreign::sb_unit_at(
            start, len, number, at, from, from_len, to, to_len, part, part_len, next,
        )
    };
    refusal::answer(refused)?;
    Ok(written.unit(at))
}

/// Unit `k`, which is found by a walk over the units before it. No key is needed, and no seal is tested.
#[inline]
pub fn unit(book: &[u8], k: u64) -> Result<Unit, Refusal> {
    let mut written = Written::default();
    let (from, from_len, to, to_len, part, part_len, next) = written.pointers();
    let (start, len, mut at) = (book.as_ptr(), book.len(), 0);
    // SAFETY: as in `unit_at`.
    let refused = unsafe {
        foreign::sb_unit(
            start, len, k, &mut at, from, from_len, to, to_len, part, part_len, next,
        )
    };
    refusal::answer(refused)?;
    Ok(written.unit(within_the_book(at)))
}

/// Where unit `k`'s ciphertext stands in the book; 0..0 where there is none, or where the walk to it
/// would be refused. No key is needed, and no seal is tested.
#[inline]
pub fn ciphertext(book: &[u8], k: u64) -> Range<usize> {
    let (mut at, mut len) = (0, 0);
    // SAFETY: the book is given with its length, and only the two numbers are written.
    unsafe { foreign::sb_ciphertext(book.as_ptr(), book.len(), k, &mut at, &mut len) };
    let [at, len] = [at, len].map(within_the_book);
    at..at + len
}
