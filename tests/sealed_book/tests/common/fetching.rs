//! Fetching in the library and in the reference, with every byte and number that is left compared.

use std::ops::Range;

use reference::book::{Book, Kind, Unit};
use reference::fetch as second;
use reference::fetch::Fetched;
use sealed_book::foreign::{sb_ciphertext, sb_fetch, sb_fetch_at};
use sealed_book::raw;

use super::guarded::{Lent, Numbers, Output};
use super::{pointer, refusal};

/// An output in which every unit has room.
pub const ROOM: usize = raw::UNIT_MAX;

/// Source and target, or a refusal's number.
pub type Answer = Result<Fetched, u32>;

/// What is fetched.
#[derive(Clone, Copy, Debug, PartialEq)]
pub enum Which {
    /// Unit k, behind the walk.
    Walked(u64),
    /// The unit of a number, at a place.
    Placed(u64, usize),
}

use Which::*;

/// The unit as it is fetched.
pub fn of(unit: &Unit) -> Fetched {
    Fetched {
        source: unit.source.clone(),
        target: unit.target.clone(),
    }
}

/// What is fetched of a book as it was written, with room in the output.
pub fn of_book(book: &Book, k: u64) -> Answer {
    let unit = usize::try_from(k).ok().and_then(|k| book.units.get(k));
    unit.map(of).ok_or(16)
}

/// What the reference answers for an output of this length.
pub fn answer_of(key: &[u8], book: &[u8], which: Which, out_len: usize) -> Answer {
    match which {
        Walked(k) => second::fetch(key, book, k, out_len),
        Placed(number, at) => {
            let (unit, next) = second::fetch_at(key, book, number, at, out_len)?;
            assert_eq!(next, behind(book, at, &unit), "reference: {which:?}");
            Ok(unit)
        }
    }
}

/// Where the next unit begins, or the close, if this unit stands at a place of the book.
fn behind(book: &[u8], at: usize, unit: &Fetched) -> usize {
    at + Kind::read_as(book).unit_len(unit.source.len(), unit.target.len())
}

/// Has the library fetch into an output of this length as C does, with null for a slice of length 0,
/// and through the wrapper; holds all that is left to the answer.
pub fn fetch_gives(
    key: &[u8],
    book: &[u8],
    which: Which,
    out_len: usize,
    answer: &Answer,
    name: &str,
) {
    let name = format!(
        "{which:?}, key {}, book {} bytes, output {out_len} bytes, {name}",
        key.len(),
        book.len()
    );
    let lent = [key, book].map(Lent::new);
    let [key, book] = lent.each_ref().map(Lent::slice);
    let (number, result) = match answer {
        Ok(unit) => (0, unit.written()),
        Err(number) => (*number, Vec::new()),
    };

    let mut out = Output::new(out_len);
    let mut numbers = Numbers::before();
    let [source, target, next] = numbers.pointers();
    let out_start = out.pointer();
    // SAFETY: each slice is given with its length, and the numbers are there.
    let returned = unsafe {
        let (key_start, book_start) = (pointer(key), pointer(book));
        let (key_len, book_len) = (key.len(), book.len());
        match which {
            Walked(k) => sb_fetch(
                key_start, key_len, book_start, book_len, k, out_start, out_len, source, target,
            ),
            Placed(number, at) => sb_fetch_at(
                key_start, key_len, book_start, book_len, number, at, out_start, out_len, source,
                target, next,
            ),
        }
    };
    // fetching behind a walk does not say where the next one begins
    let next = match (which, answer) {
        (Placed(_, at), Ok(unit)) => Some(behind(book, at, unit)),
        _ => None,
    };
    let lengths = answer
        .as_ref()
        .map(|unit| (unit.source.len(), unit.target.len()));
    let mut expected = Numbers::before();
    if let Ok((source, target)) = lengths {
        expected.set(0, source as u64);
        expected.set(1, target as u64);
    }
    if let Some(next) = next {
        expected.set(2, next as u64);
    }
    assert_eq!(returned, number, "{name}");
    assert_eq!(numbers, expected, "lengths and next, {name}");
    out.assert_begins_with(&result, &name);

    let mut out = Output::new(out_len);
    let returned = match which {
        Walked(k) => raw::fetch(key, book, k, out.slice()).map(|lengths| (lengths, None)),
        Placed(number, at) => raw::fetch_at(key, book, number, at, out.slice())
            .map(|fetched| (fetched.lengths, Some(fetched.next))),
    };
    let expected = match lengths {
        Ok((source, target)) => Ok((raw::Fetched { source, target }, next)),
        Err(number) => Err(refusal(*number)),
    };
    assert_eq!(returned, expected, "{name}");
    out.assert_begins_with(&result, &name);
    for lent in lent {
        lent.assert_unchanged(|| name.clone());
    }
}

/// The same with the answer of the reference, which is returned.
pub fn fetched(key: &[u8], book: &[u8], which: Which, out_len: usize, name: &str) -> Answer {
    let answer = answer_of(key, book, which, out_len);
    fetch_gives(key, book, which, out_len, &answer, name);
    answer
}

/// The same, where it is known which unit is fetched: into outputs that are just long enough, longer,
/// too short by one byte, and empty.
pub fn fetches(key: &[u8], book: &[u8], which: Which, unit: &Unit, name: &str) {
    let len = unit.source.len() + unit.target.len();
    let answer = Ok(of(unit));
    let of_reference = answer_of(key, book, which, len);
    assert_eq!(of_reference, answer, "reference: {which:?}, {name}");
    fetch_gives(key, book, which, len, &answer, name);
    fetch_gives(key, book, which, len + 37, &answer, name);
    fetch_gives(key, book, which, len - 1, &Err(7), name);
    fetch_gives(key, book, which, 0, &Err(7), name);
}

/// The same, where it is known that nothing is fetched, whether the output has room or not.
pub fn refuses(key: &[u8], book: &[u8], which: Which, number: u32, name: &str) {
    let answer = answer_of(key, book, which, 60);
    assert_eq!(answer, Err(number), "reference: {which:?}, {name}");
    fetch_gives(key, book, which, 60, &answer, name);
    if number != 7 {
        fetch_gives(key, book, which, 0, &answer, name);
    }
}

/// Has the library say where the ciphertext of unit k stands, as C does and through the wrapper.
pub fn part_gives(book: &[u8], k: u64, part: Range<usize>, name: &str) {
    let name = || format!("ciphertext of {k}, book {} bytes, {name}", book.len());
    let lent = Lent::new(book);
    let book = lent.slice();

    let mut numbers = Numbers::before();
    let [at, len] = numbers.pointers();
    // SAFETY: the slice is given with its length, and both numbers are there.
    unsafe { sb_ciphertext(pointer(book), book.len(), k, at, len) };
    let expected = Numbers::with([part.start as u64, part.len() as u64]);
    assert_eq!(numbers, expected, "{}", name());
    assert_eq!(raw::ciphertext(book, k), part, "{}", name());
    lent.assert_unchanged(name);
}

/// The same with the answer of the reference, which is returned; it lies within the book.
pub fn part(book: &[u8], k: u64, name: &str) -> Range<usize> {
    let part = second::ciphertext(book, k);
    part_gives(book, k, part.clone(), name);
    assert!(part.end <= book.len(), "reference: {name}");
    part
}
