//! What a book says in the clear, in the library and in the reference, with every byte and number that is
//! left compared.

use reference::clear::{self, Clear, Info};
use sealed_book::foreign::{sb_info, sb_unit, sb_unit_at};
use sealed_book::raw;

use super::fetching::Which::{self, *};
use super::guarded::{Lent, Numbers, Output};
use super::{pointer, refusal};

/// What a unit says, or a refusal's number.
pub type Answer = Result<Clear, u32>;

/// Has the library say a book's suite and number, as C does, with null for a slice of length 0, and through
/// the wrapper; holds all that is left to the reference's answer, which is returned.
pub fn info(book: &[u8], name: &str) -> Result<Info, u32> {
    let answer = clear::info(book);
    let name = || format!("info, book {} bytes, {name}", book.len());
    let lent = Lent::new(book);
    let book = lent.slice();

    let [mut cipher, mut steps] = [1, 1].map(Output::new);
    let mut number = Numbers::before();
    let [number_start] = number.pointers();
    // SAFETY: the slice is given with its length, and the two bytes and the number are there.
    let returned = unsafe {
        sb_info(
            pointer(book),
            book.len(),
            cipher.pointer(),
            steps.pointer(),
            number_start,
        )
    };
    assert_eq!(returned, answer.err().unwrap_or(0), "{}", name());
    let bytes = answer.map_or([Vec::new(), Vec::new()], |info| {
        [vec![info.cipher], vec![info.steps]]
    });
    cipher.assert_begins_with(&bytes[0], &name());
    steps.assert_begins_with(&bytes[1], &name());
    let expected = answer.map_or(Numbers::before(), |info| Numbers::with([info.number]));
    assert_eq!(number, expected, "{}", name());

    let expected = answer.map(|info| raw::Info {
        cipher: info.cipher,
        steps: info.steps,
        number: info.number,
    });
    assert_eq!(raw::info(book), expected.map_err(refusal), "{}", name());
    lent.assert_unchanged(name);
    answer
}

/// What the reference says of a unit.
pub fn answer_of(book: &[u8], which: Which) -> Answer {
    match which {
        Walked(k) => clear::unit(book, k),
        Placed(number, at) => clear::unit_at(book, number, at),
    }
}

/// Has the library say what a unit says, as C does and through the wrapper; holds all that is left to the
/// answer.
pub fn unit_gives(book: &[u8], which: Which, answer: &Answer, name: &str) {
    let name = || format!("clear, {which:?}, book {} bytes, {name}", book.len());
    let lent = Lent::new(book);
    let book = lent.slice();

    let [mut from, mut to] = [raw::CODE_ROOM; 2].map(Output::new);
    let mut numbers = Numbers::before();
    let [from_len, to_len, part_at, part_len, next, at] = numbers.pointers();
    let (from_start, to_start) = (from.pointer(), to.pointer());
    let (start, len) = (pointer(book), book.len());
    // SAFETY: the slice is given with its length, the codes have their room, and the numbers are there.
    let returned = unsafe {
        match which {
            Walked(k) => sb_unit(
                start, len, k, at, from_start, from_len, to_start, to_len, part_at, part_len, next,
            ),
            Placed(number, at) => sb_unit_at(
                start, len, number, at, from_start, from_len, to_start, to_len, part_at, part_len,
                next,
            ),
        }
    };
    assert_eq!(
        returned,
        answer.as_ref().err().map_or(0, |n| *n),
        "{}",
        name()
    );
    let mut expected = Numbers::before();
    if let Ok(unit) = answer {
        let part = &unit.ciphertext;
        let written = [2, 2, part.start, part.len(), unit.next];
        for (i, number) in written.into_iter().enumerate() {
            expected.set(i, number as u64);
        }
        if let Walked(_) = which {
            expected.set(5, unit.at as u64);
        }
        // the letters, and zeros up to the end of the room
        from.assert_begins_with(&[&unit.from[..], &[0, 0]].concat(), &name());
        to.assert_begins_with(&[&unit.to[..], &[0, 0]].concat(), &name());
    } else {
        from.assert_begins_with(&[], &name());
        to.assert_begins_with(&[], &name());
    }
    assert_eq!(numbers, expected, "{}", name());

    let returned = match which {
        Walked(k) => raw::unit(book, k),
        Placed(number, at) => raw::unit_at(book, number, at),
    };
    let returned = returned.map(|unit| Clear {
        at: unit.at,
        from: unit.from.as_str().into(),
        to: unit.to.as_str().into(),
        ciphertext: unit.ciphertext,
        next: unit.next,
    });
    assert_eq!(returned, answer.clone().map_err(refusal), "{}", name());
    lent.assert_unchanged(name);
}

/// The same with the answer of the reference, which is returned.
pub fn unit(book: &[u8], which: Which, name: &str) -> Answer {
    let answer = answer_of(book, which);
    unit_gives(book, which, &answer, name);
    answer
}

/// The same, where it is known that the unit is refused.
pub fn refuses(book: &[u8], which: Which, number: u32, name: &str) {
    let answer = unit(book, which, name);
    assert_eq!(answer, Err(number), "reference: {which:?}, {name}");
}
