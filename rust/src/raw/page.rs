//! How alike two segments are, and a typed sentence compared with a whole book.

use crate::{foreign, refusal, Refusal};

/// How alike two segments are, of any length: 0 to [`SCORE_MAX`](super::SCORE_MAX), and the same both ways round.
/// [`score`](crate::score()) says how it is counted.
#[inline]
pub fn score(source: &[u8], typed: &[u8]) -> u32 {
    // SAFETY: each slice is given with its length, and both are only read.
    unsafe { foreign::sb_score(source.as_ptr(), source.len(), typed.as_ptr(), typed.len()) }
}

/// Compares a typed sentence, also an empty one, with every unit of a book, which is checked first as by
/// [`check`](super::check). Writes a row for each unit at the start of `page`, and returns how many bytes they are:
/// [`ROW_LEN`](super::ROW_LEN) a unit.
#[inline]
pub fn page(key: &[u8], book: &[u8], typed: &[u8], page: &mut [u8]) -> Result<usize, Refusal> {
    let mut len = 0;
    // SAFETY: each slice is given with its length, and only `page` and the number are written.
    let number = unsafe {
        foreign::sb_page(
            key.as_ptr(),
            key.len(),
            book.as_ptr(),
            book.len(),
            typed.as_ptr(),
            typed.len(),
            page.as_mut_ptr(),
            page.len(),
            &mut len,
        )
    };
    refusal::answer(number)?;
    Ok(usize::try_from(len).expect("no longer than the page's buffer"))
}
