//! What a book says in the clear: its suite and number, and of a unit the languages, where the ciphertext
//! stands, and where the next unit begins. No key is needed, and no seal is tested.
//!
//! The scope does not have these calls. Refusals are given by their numbers.

use std::ops::Range;

use crate::fetch::{Frame, Opening};

/// What the opening fields say.
#[derive(Clone, Copy, Debug, PartialEq, Eq)]
pub struct Info {
    pub cipher: u8,
    pub steps: u8,
    pub number: u64,
}

/// Suite and book number of the opening fields. Refusals: 14, 1.
pub fn info(book: &[u8]) -> Result<Info, u32> {
    let opening = Opening::of(book)?;
    let number = opening.number.iter();
    Ok(Info {
        cipher: opening.cipher,
        steps: opening.steps,
        number: number.fold(0, |number, byte| number << 8 | u64::from(*byte)),
    })
}

/// What a unit's fields say.
#[derive(Clone, Debug, PartialEq, Eq)]
pub struct Clear {
    /// Where they begin.
    pub at: usize,
    /// The languages' letters.
    pub from: Vec<u8>,
    pub to: Vec<u8>,
    /// Where the ciphertext stands.
    pub ciphertext: Range<usize>,
    /// Where the next unit begins, or the close.
    pub next: usize,
}

/// The unit of this number whose fields begin at byte `at` of the book. Refusals: 14 and 1 of the opening
/// fields; what stands there, read as that unit, 14, 13, 15, 11, 14; where it begins with the close's tag 14
/// and 15 of the close, else 16.
pub fn unit_at(book: &[u8], number: u64, at: usize) -> Result<Clear, u32> {
    Opening::of(book)?;
    let frame = Frame::at(book, at, number)?;
    if !frame.is_unit {
        return Err(16);
    }
    // at the end of the header: the source's language and the target's
    let [.., f0, f1, t0, t1] = frame.head else {
        panic!("9 bytes or more");
    };
    Ok(Clear {
        at,
        from: vec![*f0, *f1],
        to: vec![*t0, *t1],
        ciphertext: frame.ciphertext,
        next: frame.end,
    })
}

/// Unit k, found by a walk. Refusals: 14, 1; of each unit up to k 14, 13, 15, 11, 14; where the close is met
/// 14, 15, then 16.
pub fn unit(book: &[u8], k: u64) -> Result<Clear, u32> {
    let mut unit = unit_at(book, 0, 16)?;
    for number in 1..=k {
        unit = unit_at(book, number, unit.next)?;
    }
    Ok(unit)
}

#[cfg(test)]
mod tests {
    use super::*;
    use crate::book::{places, Book, Kind};
    use crate::cipher::SUITES;
    use crate::fetch::{ciphertext, fetch};
    use crate::random::Random;

    const KEY: [u8; 16] = [9; 16];

    /// Known value 8's book: 84 bytes as printed, with fields at 0, 11, 16, 25, 41, 60 and 65; 88 bytes as the
    /// writer makes it, with fields at 0, 11, 16, 27, 43, 62 and 69.
    #[test]
    fn known_book() {
        for (kind, ciphertext, close, end) in
            [(Kind::Tag10, 28..41, 60, 84), (Kind::Tag14, 30..43, 62, 88)]
        {
            let (book, _) = Book::known(kind, KEY).laid_out();
            let expected = Info {
                cipher: 1,
                steps: 10,
                number: 7,
            };
            for len in 0..=end {
                let answer = info(&book[..len]);
                let expected = if len < 16 { Err(14) } else { Ok(expected) };
                assert_eq!(answer, expected, "{len} bytes");
            }
            let expected = Clear {
                at: 16,
                from: b"en".to_vec(),
                to: b"de".to_vec(),
                ciphertext,
                next: close,
            };
            assert_eq!(unit(&book, 0), Ok(expected.clone()));
            for len in 0..=end {
                let answer = unit_at(&book[..len], 0, 16);
                let expected = if len < close {
                    Err(14)
                } else {
                    Ok(expected.clone())
                };
                assert_eq!(answer, expected, "{len} bytes");
            }
            // the close: 14 of its fields, 15 of its count, 16, whatever its seal is and stands behind it
            for k in [1, 2, 65_535, u64::MAX] {
                assert_eq!(unit(&book, k), Err(16), "{k}");
            }
            assert_eq!(unit_at(&book, 1, close), Err(16));
            assert_eq!(unit_at(&book, 2, close), Err(15));
            assert_eq!(unit_at(&book[..end - 1], 1, close), Err(14));
            let mut changed = [&book[..], &[0]].concat();
            changed[end - 1] ^= 1;
            assert_eq!(unit_at(&changed, 1, close), Err(16));
        }
    }

    /// Codes that are the same are said as all others; with a byte that is no letter in both they are refused.
    #[test]
    fn equal_codes() {
        for kind in Kind::ALL {
            let mut book = Book::known(kind, KEY);
            for (code, allowed) in [(b"en", true), (b"zz", true), (b"En", false)] {
                (book.units[0].from, book.units[0].to) = (*code, *code);
                let (bytes, _) = book.laid_out();
                let codes = unit(&bytes, 0).map(|unit| (unit.from, unit.to));
                let expected = match allowed {
                    true => Ok((code.to_vec(), code.to_vec())),
                    false => Err(11),
                };
                assert_eq!(codes, expected, "{kind:?}, {code:?}");
            }
        }
    }

    /// A refusal is the one that fetching gives, and where fetching has opened the unit, or the close, this
    /// is handed out, or 16.
    #[test]
    fn as_fetching() {
        let mut random = Random::new(18);
        let mut counts = [0; 17];
        for (i, suite) in [SUITES, SUITES].concat().into_iter().enumerate() {
            let mut book = Book::random(&mut random, suite);
            book.kind = Kind::ALL[i / 8];
            for _ in 0..3 {
                book.units
                    .push(Book::known(book.kind, KEY).units[0].clone());
            }
            let (bytes, _) = book.laid_out();
            let places = places(&book);
            for _ in 0..200 {
                let mut bytes = bytes.clone();
                for _ in 0..random.below(3) {
                    let at = random.below(bytes.len());
                    bytes[at] =
                        random.one_of(&[0, 1, 0x10, 0x12, 0x14, 0x20, 0x21, bytes[at], 0xFF]);
                }
                let k = random.below(5);
                let (answer, part) = (unit(&bytes, k as u64), ciphertext(&bytes, k as u64));
                counts[answer.as_ref().err().map_or(0, |n| *n as usize)] += 1;
                match fetch(&book.key, &bytes, k as u64, 0) {
                    Ok(_) => panic!("an output of no bytes"),
                    Err(7) => assert!(answer.is_ok()),
                    Err(8) => assert!(matches!(answer, Ok(_) | Err(16))),
                    Err(number) => assert_eq!(answer, Err(number)),
                }
                if let Ok(unit) = answer {
                    assert_eq!((unit.at, unit.next), (places[k], places[k + 1]));
                    assert_eq!(
                        (unit.ciphertext.start, &unit.ciphertext),
                        (unit.at + book.kind.ciphertext_at(), &part)
                    );
                } else {
                    assert_eq!(part, 0..0);
                }
            }
        }
        for number in [0, 1, 11, 14, 15, 16] {
            assert!(counts[number] > 5, "{counts:?}");
        }
    }
}
