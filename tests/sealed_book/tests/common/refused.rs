//! Books that checking refuses, for any set of causes.

use reference::book::Book;
use reference::cipher::SUITES;
use reference::random::Random;

use super::parts::{another, close_fields, random_book, unit_fields, Parts};
use super::spoiling::{bad_ciphertext, bad_codes, bad_text, good_codes, spoil, text};
use super::{causes, UNLISTED};

/// The causes in the order in which they are given; the close's are those after `Lengths`. `FullBook` is that of
/// a unit of an old book whose number does not fit into two bytes.
#[derive(Clone, Copy, Debug, PartialEq)]
pub enum Cause {
    Key,
    OpeningFields,
    Suite,
    UnitHead,
    FullBook,
    UnitNumber,
    Languages,
    UnitRest,
    UnitTag,
    Lengths,
    CloseFields,
    Count,
    CloseTag,
    LeftOver,
}

use Cause::*;

/// All of them but `FullBook`, which takes a long book.
pub const CAUSES: [Cause; 13] = [
    Key,
    OpeningFields,
    Suite,
    UnitHead,
    UnitNumber,
    Languages,
    UnitRest,
    UnitTag,
    Lengths,
    CloseFields,
    Count,
    CloseTag,
    LeftOver,
];

/// How many sets of these causes begin with one of each number; that without causes is at 0.
pub fn first_of_each_set() -> [usize; 17] {
    let mut counts = [0; 17];
    counts[0] = 1;
    for (i, cause) in CAUSES.into_iter().rev().enumerate() {
        counts[causes::Cause::number(cause) as usize] += 1 << i;
    }
    counts
}

impl causes::Cause for Cause {
    fn number(self) -> u32 {
        match self {
            Suite => 1,
            Key => 2,
            UnitTag | CloseTag => 8,
            Languages => 11,
            Lengths => 12,
            OpeningFields | UnitHead | UnitRest | CloseFields | LeftOver => 14,
            FullBook | UnitNumber | Count => 15,
        }
    }
}

/// Key and bytes of a book whose last unit and close have these causes; before them stand the opening
/// fields and units of `before`, spoiled only as the set says.
pub fn spoiled(
    random: &mut Random,
    book: &Book,
    before: &Parts,
    set: &[Cause],
) -> (Vec<u8>, Vec<u8>) {
    let has = |cause| set.contains(&cause);
    let key = match has(Key) {
        true => {
            let len = random.one_of(&[0, 1, 15, 17, 32]);
            random.some_bytes(len)
        }
        false => book.key.to_vec(),
    };
    let running = before.units.len();
    let number = match has(UnitNumber) {
        true => another(random, book.kind, running),
        false => running,
    };
    let codes = match has(Languages) {
        true => bad_codes(random),
        false => good_codes(random),
    };
    let text = match has(Lengths) {
        true => bad_text(random),
        false => {
            let s = 1 + random.below(20);
            let t = random.below(20);
            text(random, s, s + t)
        }
    };
    let count = match has(Count) {
        true => another(random, book.kind, running + 1),
        false => running + 1,
    };
    let [head, mut ciphertext, mut tag] = unit_fields(book, running, number, codes, &text);
    let [close_head, mut close_tag] = close_fields(book, running + 1, count);
    if has(UnitTag) {
        let sealed = match random.below(2) {
            0 => &mut ciphertext,
            _ => &mut tag,
        };
        let at = 3 + random.below(sealed.len() - 3);
        sealed[at] ^= 1 << random.below(8);
    }
    if has(CloseTag) {
        close_tag[3 + random.below(16)] ^= 1 << random.below(8);
    }
    let (number_field, suite_field) = before.opening.split_at(11);
    let mut suite_field = suite_field.to_vec();
    if has(Suite) {
        let (cipher, steps) = random.one_of(&UNLISTED);
        suite_field[3..].copy_from_slice(&[cipher, steps]);
    }
    let left_over = match has(LeftOver) {
        true => {
            let len = random.one_of(&[1, 2, 24, 40]);
            random.some_bytes(len)
        }
        false => Vec::new(),
    };

    // 0 and 1 are the opening fields, 3 is the unit's head, 4 and 5 are its rest, 6 and 7 the close's
    let mut fields = vec![
        number_field.to_vec(),
        suite_field,
        before.units.concat(),
        head,
        ciphertext,
        tag,
        close_head,
        close_tag,
        left_over,
    ];
    if has(CloseFields) {
        let at = random.one_of(&[6, 7]);
        spoil(random, &mut fields, at);
    }
    if has(UnitRest) {
        match random.below(3) {
            0 => fields[4] = bad_ciphertext(random),
            1 => spoil(random, &mut fields, 4),
            _ => spoil(random, &mut fields, 5),
        }
    }
    if has(UnitHead) {
        spoil(random, &mut fields, 3);
    }
    if has(OpeningFields) {
        let at = random.one_of(&[0, 1]);
        spoil(random, &mut fields, at);
    }
    (key, fields.concat())
}

/// Key and bytes with these causes behind no unit or some.
pub fn random_case(random: &mut Random, set: &[Cause]) -> (Vec<u8>, Vec<u8>) {
    let (suite, units) = (random.one_of(&SUITES), random.below(3));
    let book = random_book(random, suite, units, 10);
    let before = Parts::of(&book);
    spoiled(random, &book, &before, set)
}
