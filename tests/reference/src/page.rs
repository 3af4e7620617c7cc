//! A page: a typed sentence compared with every unit of a book.
//!
//! Quoted sentences are the request's. Refusals are given by their numbers.

use crate::check::check;
use crate::fetch::fetch_at;
use crate::score::score;

/// "source length right-aligned in 5 columns, two blanks, score in 4, a line feed"
fn row(source: &[u8], typed: &[u8]) -> String {
    format!("{:>5}  {:>4}\n", source.len(), score(source, typed))
}

/// "The page has one row a unit, in book order". "A book that checking refuses gives that refusal, then a
/// short page buffer gives 7". `room` is the length of the page's buffer.
pub fn page(key: &[u8], book: &[u8], typed: &[u8], room: usize) -> Result<Vec<u8>, u32> {
    let (units, _) = check(key, book)?;
    let mut page = String::new();
    let mut place = 16;
    for number in 0..units {
        let (unit, next) = fetch_at(key, book, number, place, 8_192).expect("a checked book");
        page += &row(&unit.source, typed);
        place = next;
    }
    if room < page.len() {
        return Err(7);
    }
    Ok(page.into_bytes())
}

#[cfg(test)]
mod tests {
    use super::*;
    use crate::book::{Book, Kind, Unit};
    use crate::cipher::SUITES;
    use crate::random::Random;

    const KEY: [u8; 16] = [9; 16];

    /// A book with these sources, and targets that must not matter.
    fn book(random: &mut Random, suite: (u8, u8), sources: &[&[u8]]) -> Book {
        let mut book = Book::random(random, suite);
        for source in sources {
            let len = random.below(40);
            book.units.push(Unit {
                from: *b"en",
                to: *b"de",
                source: source.to_vec(),
                target: random.some_bytes(len),
            });
        }
        book
    }

    /// "A unit "valve" against a typed "valves" gives `    5   857`." "An empty typed sentence is allowed."
    #[test]
    fn known_book() {
        for kind in Kind::ALL {
            let (bytes, _) = Book::known(kind, KEY).laid_out();
            for (typed, expected) in [
                ("valves", "    5   857\n"),
                ("valve", "    5  1000\n"),
                ("", "    5     0\n"),
                ("Ventil", "    5     0\n"),
            ] {
                let answer = page(&KEY, &bytes, typed.as_bytes(), 12);
                assert_eq!(answer, Ok(expected.as_bytes().to_vec()), "{typed:?}");
            }
        }
    }

    /// Lengths of one digit to four, and scores of one to four, in the order of the book.
    #[test]
    fn rows_in_order() {
        let mut random = Random::new(19);
        let long = vec![b'a'; 4_096];
        let sources: [&[u8]; 6] = [
            b"x",
            b"banana",
            b"ananas",
            &long,
            b"An ananas is not a banana.",
            &long[..100],
        ];
        // ananas has ana nan ana nas, banana three of these among its four, and the sentence all of them among
        // its 24: 8,000 / 28 is 285 and some
        let expected =
            "    1     0\n    6   750\n    6  1000\n 4096     0\n   26   285\n  100     0\n";
        for suite in SUITES {
            let mut book = book(&mut random, suite, &sources);
            for kind in Kind::ALL {
                book.kind = kind;
                let (bytes, _) = book.laid_out();
                let answer = page(&book.key, &bytes, b"ananas", 72);
                assert_eq!(answer, Ok(expected.as_bytes().to_vec()), "suite {suite:?}");
            }
        }
    }

    /// "A book that checking refuses gives that refusal, then a short page buffer gives 7".
    #[test]
    fn refusals_in_order() {
        for (kind, places) in [
            (Kind::Tag10, [0, 14, 20, 21, 28, 83]),
            (Kind::Tag14, [0, 14, 22, 23, 30, 87]),
        ] {
            let (bytes, _) = Book::known(kind, KEY).laid_out();
            for room in 0..30 {
                let expected = match room {
                    0..12 => Err(7),
                    _ => Ok(b"    5   857\n".to_vec()),
                };
                assert_eq!(page(&KEY, &bytes, b"valves", room), expected, "{room}");
                assert_eq!(page(&KEY[1..], &bytes, b"valves", room), Err(2), "{room}");
                for (at, number) in places.into_iter().zip([14, 1, 15, 11, 8, 8]) {
                    let mut changed = bytes.clone();
                    changed[at] ^= 0x40;
                    let answer = page(&KEY, &changed, b"valves", room);
                    assert_eq!(answer, Err(number), "byte {at}, {room}");
                }
                let short = &bytes[..bytes.len() - 1];
                assert_eq!(page(&KEY, short, b"", room), Err(14), "{room}");
            }
        }
    }

    /// A book without units has a page without rows, which takes no room.
    #[test]
    fn no_units() {
        let mut random = Random::new(20);
        for suite in SUITES {
            let mut book = book(&mut random, suite, &[]);
            for kind in Kind::ALL {
                book.kind = kind;
                let (bytes, _) = book.laid_out();
                for room in [0, 1, 12] {
                    assert_eq!(page(&book.key, &bytes, b"valves", room), Ok(Vec::new()));
                }
            }
        }
    }
}
