//! Checking a book, and fetching from one.

use super::clear::within_the_book;
use crate::{foreign, refusal, Refusal};

/// What checking returns.
#[derive(Clone, Copy, Debug, PartialEq, Eq)]
pub struct Checked {
    /// How many units the book has.
    pub units: u64,
    /// How many calls of the cipher writing these bytes takes.
    pub calls: u64,
}

/// Checks a whole book under its key: accepted is what a writer can leave after its close, one of this version
/// or of a version before 0.3, taken with this version's rule for language codes, and nothing else. Only reads. With
/// the book's length the two numbers are its [`Receipt`](crate::Receipt), to be compared with the one of its maker.
#[inline]
pub fn check(key: &[u8], book: &[u8]) -> Result<Checked, Refusal> {
    let (mut units, mut calls) = (0, 0);
    // SAFETY: each slice is given with its length, and only the two numbers are written.
    let number = unsafe {
        foreign::sb_check(
            key.as_ptr(),
            key.len(),
            book.as_ptr(),
            book.len(),
            &mut units,
            &mut calls,
        )
    };
    refusal::answer(number)?;
    Ok(Checked { units, calls })
}

/// What fetching returns: the lengths of source and target, which stand one behind the other at the
/// start of the output.
#[derive(Clone, Copy, Debug, PartialEq, Eq)]
pub struct Fetched {
    /// The source's length.
    pub source: usize,
    /// The target's length.
    pub target: usize,
}

impl Fetched {
    /// The lengths that the library has given.
    fn new(source: u64, target: u64) -> Fetched {
        let [source, target] =
            [source, target].map(|len| usize::try_from(len).expect("no longer than the output"));
        Fetched { source, target }
    }
}

/// Fetches unit `k`: walks the units before it without their seals, opens it, and writes source and
/// target at the start of `out`, for which [`UNIT_MAX`](super::UNIT_MAX) bytes are always enough.
#[inline]
pub fn fetch(key: &[u8], book: &[u8], k: u64, out: &mut [u8]) -> Result<Fetched, Refusal> {
    let (mut source, mut target) = (0, 0);
    // SAFETY: each slice is given with its length, and only `out` and the two numbers are written.
    let number = unsafe {
        foreign::sb_fetch(
            key.as_ptr(),
            key.len(),
            book.as_ptr(),
            book.len(),
            k,
            out.as_mut_ptr(),
            out.len(),
            &mut source,
            &mut target,
        )
    };
    refusal::answer(number)?;
    Ok(Fetched::new(source, target))
}

/// What fetching at a place returns.
#[derive(Clone, Copy, Debug, PartialEq, Eq)]
pub struct FetchedAt {
    /// The lengths of source and target.
    pub lengths: Fetched,
    /// Where the next unit begins, or the close.
    pub next: usize,
}

/// Fetches the unit of this number, whose fields begin at byte `at` of the book, without a walk. Unit 0
/// begins at [`FIRST_UNIT`](super::FIRST_UNIT), each further one at the `next` of the one before it. Any
/// place may be given; what stands there is read as the unit of this number, or as the close.
#[inline]
pub fn fetch_at(
    key: &[u8],
    book: &[u8],
    number: u64,
    at: usize,
    out: &mut [u8],
) -> Result<FetchedAt, Refusal> {
    let (mut source, mut target, mut next) = (0, 0, 0);
    // SAFETY: each slice is given with its length, and only `out` and the three numbers are written.
    let number = unsafe {
        foreign::sb_fetch_at(
            key.as_ptr(),
            key.len(),
            book.as_ptr(),
            book.len(),
            number,
            at,
            out.as_mut_ptr(),
            out.len(),
            &mut source,
            &mut target,
            &mut next,
        )
    };
    refusal::answer(number)?;
    Ok(FetchedAt {
        lengths: Fetched::new(source, target),
        next: within_the_book(next),
    })
}
