//! Scores and pages in the library and in the reference, with every byte and number that is left compared.

use reference::book::Book;
use reference::page as second;
use reference::score::score;
use sealed_book::foreign::{sb_page, sb_score};
use sealed_book::raw;

use super::guarded::{Lent, Numbers, Output};
use super::{pointer, refusal};

/// The page, or a refusal's number.
pub type Answer = Result<Vec<u8>, u32>;

/// Has the library score the two both ways round, as C does, with null for a slice of length 0, and through
/// the wrapper.
pub fn score_gives(source: &[u8], typed: &[u8], expected: u32, name: &str) {
    let name = || format!("{} and {} bytes, {name}", source.len(), typed.len());
    let lent = [source, typed].map(Lent::new);
    let [source, typed] = lent.each_ref().map(Lent::slice);
    for (one, other) in [(source, typed), (typed, source)] {
        // SAFETY: each slice is given with its length.
        let returned = unsafe { sb_score(pointer(one), one.len(), pointer(other), other.len()) };
        assert_eq!(returned, expected, "{}", name());
    }
    assert_eq!(raw::score(source, typed), expected, "{}", name());
    for lent in lent {
        lent.assert_unchanged(name);
    }
}

/// The same with the score of the reference, which is returned.
pub fn scored(source: &[u8], typed: &[u8], name: &str) -> u32 {
    let expected = score(source, typed);
    score_gives(source, typed, expected, name);
    expected
}

/// A row: "source length right-aligned in 5 columns, two blanks, score in 4, a line feed".
pub fn row(source: &[u8], typed: &[u8]) -> String {
    let (len, score) = (source.len().to_string(), score(source, typed).to_string());
    let blanks = |count| " ".repeat(count);
    let [before, between] = [5 - len.len(), 2 + 4 - score.len()].map(blanks);
    format!("{before}{len}{between}{score}\n")
}

/// The page of a book as it was written, with room in the buffer.
pub fn of_book(book: &Book, typed: &[u8]) -> Vec<u8> {
    let rows = book.units.iter().map(|unit| row(&unit.source, typed));
    rows.collect::<String>().into_bytes()
}

/// Has the library make the page in a buffer of this length as C does, with null for a slice of length 0,
/// and through the wrapper; holds all that is left to the answer.
pub fn page_gives(key: &[u8], book: &[u8], typed: &[u8], room: usize, answer: &Answer, name: &str) {
    let name = format!(
        "key {}, book {} bytes, typed {}, room {room}, {name}",
        key.len(),
        book.len(),
        typed.len()
    );
    let lent = [key, book, typed].map(Lent::new);
    let [key, book, typed] = lent.each_ref().map(Lent::slice);
    let (number, result) = match answer {
        Ok(page) => (0, &page[..]),
        Err(number) => (*number, &[][..]),
    };

    let mut out = Output::new(room);
    let mut numbers = Numbers::before();
    let [len] = numbers.pointers();
    // SAFETY: each slice is given with its length, and the number is there.
    let returned = unsafe {
        sb_page(
            pointer(key),
            key.len(),
            pointer(book),
            book.len(),
            pointer(typed),
            typed.len(),
            out.pointer(),
            room,
            len,
        )
    };
    let expected = match answer {
        Ok(page) => Numbers::with([page.len() as u64]),
        Err(_) => Numbers::before(),
    };
    assert_eq!(returned, number, "{name}");
    assert_eq!(numbers, expected, "length, {name}");
    out.assert_begins_with(result, &name);

    let mut out = Output::new(room);
    let returned = raw::page(key, book, typed, out.slice());
    let expected = match answer {
        Ok(page) => Ok(page.len()),
        Err(number) => Err(refusal(*number)),
    };
    assert_eq!(returned, expected, "{name}");
    out.assert_begins_with(result, &name);
    for lent in lent {
        lent.assert_unchanged(|| name.clone());
    }
}

/// The same with the answer of the reference, which is returned.
pub fn paged(key: &[u8], book: &[u8], typed: &[u8], room: usize, name: &str) -> Answer {
    let answer = second::page(key, book, typed, room);
    page_gives(key, book, typed, room, &answer, name);
    answer
}

/// The same, where it is known what the book says: in buffers that are just long enough, longer, and too
/// short by one byte.
pub fn pages(book: &Book, bytes: &[u8], typed: &[u8], name: &str) {
    let page = of_book(book, typed);
    let len = page.len();
    let answer = Ok(page);
    let of_reference = second::page(&book.key, bytes, typed, len);
    assert_eq!(of_reference, answer, "reference: {name}");
    page_gives(&book.key, bytes, typed, len, &answer, name);
    page_gives(&book.key, bytes, typed, len + 37, &answer, name);
    if len > 0 {
        page_gives(&book.key, bytes, typed, len - 1, &Err(7), name);
    }
}
