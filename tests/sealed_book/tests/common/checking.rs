//! Checking in the library and in the reference, with every byte and number that is left compared.

use reference::book::Book;
use reference::check::check;
use sealed_book::foreign::sb_check;
use sealed_book::raw::{self, Checked};

use super::guarded::{Lent, Numbers};
use super::{pointer, refusal};

/// Unit count and call total, or a refusal's number.
pub type Answer = Result<(u64, u64), u32>;

/// Has the library check the book as C does, with null for a slice of length 0, and through the
/// wrapper; holds all that is left to the answer.
pub fn check_gives(key: &[u8], book: &[u8], answer: Answer, name: &str) {
    let name = || format!("key {}, book {} bytes, {name}", key.len(), book.len());
    let lent = [key, book].map(Lent::new);
    let [key, book] = lent.each_ref().map(Lent::slice);

    let mut numbers = Numbers::before();
    let [units, calls] = numbers.pointers();
    // SAFETY: each slice is given with its length, and both numbers are there.
    let returned = unsafe {
        sb_check(
            pointer(key),
            key.len(),
            pointer(book),
            book.len(),
            units,
            calls,
        )
    };
    let expected = answer.map_or(Numbers::before(), |(units, calls)| {
        Numbers::with([units, calls])
    });
    assert_eq!(returned, answer.err().unwrap_or(0), "{}", name());
    assert_eq!(numbers, expected, "units and calls, {}", name());

    let expected = answer.map(|(units, calls)| Checked { units, calls });
    let returned = raw::check(key, book);
    assert_eq!(returned, expected.map_err(refusal), "{}", name());
    for lent in lent {
        lent.assert_unchanged(name);
    }
}

/// The same with the answer of the reference, which is returned. It is held against the layout, too:
/// what is accepted is what some book is laid out as.
pub fn checked(key: &[u8], book: &[u8], name: &str) -> Answer {
    let answer = check(key, book);
    check_gives(key, book, answer, name);
    if let Ok(key) = key.try_into() {
        let laid_out = Book::taken_apart(key, book);
        assert_eq!(answer.is_ok(), laid_out.is_some(), "reference: {name}");
    }
    answer
}

/// The same, where it is known that the book is accepted, and with what counts.
pub fn accepts(key: &[u8], book: &[u8], units: u64, calls: u64, name: &str) {
    let answer = checked(key, book, name);
    assert_eq!(answer, Ok((units, calls)), "reference: {name}");
}

/// The same, where it is known that the book is refused.
pub fn refuses(key: &[u8], book: &[u8], number: u32, name: &str) {
    let answer = checked(key, book, name);
    assert_eq!(answer, Err(number), "reference: {name}");
}
