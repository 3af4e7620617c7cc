//! Checking books that were changed after they were written: always refused.

mod common;

use common::checking::{accepts, checked, refuses};
use common::parts::{
    close_fields, number_in, random_book, renumber, some_book, three_units, unit_fields, written,
    Parts,
};
use common::spoiling::damage;
use common::swapped;
use common::writing::unit;
use reference::book::Book;
use reference::cipher::SUITES;
use reference::random::Random;

const SEED: u64 = 0x4344_414D;

/// A book of each suite with no unit, one, or two, and its bytes.
fn small_books(random: &mut Random) -> Vec<(Book, Vec<u8>)> {
    let mut books = Vec::new();
    for suite in SUITES {
        let units = random.below(3);
        let book = random_book(random, suite, units, 20);
        let (bytes, writer) = written(&book);
        accepts(&book.key, &bytes, writer.units, writer.calls, "as written");
        books.push((book, bytes));
    }
    books
}

/// It is refused, as by the reference.
fn refused(key: &[u8], book: &[u8], name: &str) {
    let answer = checked(key, book, name);
    assert!(answer.is_err(), "reference: {name}");
}

/// Each byte in each bit and in all bits, and as the tag of each field.
#[test]
fn changed_bytes() {
    let mut random = Random::new(SEED);
    for (book, bytes) in small_books(&mut random) {
        for at in 0..bytes.len() {
            let changes = [1, 2, 4, 8, 16, 32, 64, 128, 255].map(|change| bytes[at] ^ change);
            let tags = [0x01, 0x02, 0x10, 0x11, 0x12, 0x14, 0x20, 0x21];
            for byte in changes.into_iter().chain(tags) {
                let mut damaged = bytes.clone();
                damaged[at] = byte;
                if damaged != bytes {
                    let name = format!("byte {at} {byte:02X}, seed {SEED:X}");
                    refused(&book.key, &damaged, &name);
                }
            }
        }
    }
}

#[test]
fn changed_key() {
    let mut random = Random::new(SEED + 1);
    for (book, bytes) in small_books(&mut random) {
        for bit in 0..128 {
            let mut key = book.key;
            key[bit / 8] ^= 1 << (bit % 8);
            refuses(&key, &bytes, 8, &format!("key bit {bit}"));
        }
    }
}

/// The start of a book alone; its end alone; and each byte taken away.
#[test]
fn bytes_taken_away() {
    let mut random = Random::new(SEED + 2);
    for (book, bytes) in small_books(&mut random) {
        for at in 0..bytes.len() {
            let name = format!("byte {at} of {}, seed {:X}", bytes.len(), SEED + 2);
            refuses(&book.key, &bytes[..at], 14, &format!("up to {name}"));
            refused(&book.key, &bytes[at + 1..], &format!("after {name}"));
            let without = [&bytes[..at], &bytes[at + 1..]].concat();
            refused(&book.key, &without, &format!("without {name}"));
        }
    }
}

/// Bytes left over, a second close and a second book among them; and bytes put in at each place.
#[test]
fn bytes_put_in() {
    let mut random = Random::new(SEED + 3);
    for (book, bytes) in small_books(&mut random) {
        let close = bytes.len() - book.kind.close_len();
        let mut more = vec![bytes[close..].to_vec(), bytes.clone()];
        more.extend([1, 2, 3, 16, 24, 26, 300].map(|len| random.some_bytes(len)));
        more.extend([0x00, 0x10, 0x14, 0x20, 0x21, 0xFF].map(|byte| vec![byte]));
        for more in more {
            let name = format!("{} bytes left over", more.len());
            refuses(&book.key, &[&bytes[..], &more].concat(), 14, &name);
        }
        for at in 0..bytes.len() {
            for byte in [0x00, bytes[at], 0xFF] {
                let with = [&bytes[..at], &[byte], &bytes[at..]].concat();
                refused(&book.key, &with, &format!("{byte:02X} put in at {at}"));
            }
        }
    }
}

#[test]
fn units_exchanged() {
    let mut random = Random::new(SEED + 4);
    for suite in SUITES {
        let book = three_units(&mut random, suite);
        let parts = Parts::of(&book);
        let change = |number, name: &str, change: &dyn Fn(&mut Parts)| {
            let mut parts = parts.clone();
            change(&mut parts);
            refuses(&book.key, &parts.joined(), number, name);
        };
        for (one, other) in [(0, 1), (1, 2), (0, 2)] {
            change(15, "exchanged", &|parts| parts.units.swap(one, other));
            change(8, "exchanged, in running order", &|parts| {
                parts.units.swap(one, other);
                renumber(&mut parts.units[one], one as u8);
                renumber(&mut parts.units[other], other as u8);
            });
        }
        for at in 0..3 {
            change(15, "dropped", &|parts| drop(parts.units.remove(at)));
            change(15, "doubled", &|parts| {
                parts.units.insert(at, parts.units[at].clone())
            });
            change(8, "doubled, in running order", &|parts| {
                parts.units.insert(at, parts.units[at].clone());
                for (i, unit) in parts.units.iter_mut().enumerate() {
                    renumber(unit, i as u8);
                }
            });
            change(15, "another number", &|parts| {
                renumber(&mut parts.units[at], at as u8 + 1)
            });
            change(15, "a number with the same low byte", &|parts| {
                parts.units[at][3] = 1
            });
        }
        change(8, "the first dropped, in running order", &|parts| {
            parts.units.remove(0);
            renumber(&mut parts.units[0], 0);
            renumber(&mut parts.units[1], 1);
        });
        change(15, "no unit", &|parts| parts.units.clear());
        change(14, "no close", &|parts| parts.close.clear());
        change(14, "a unit behind the close", &|parts| {
            let last = parts.units.pop();
            parts.close = close_fields(&book, 2, 2).concat();
            parts.close.extend(last.expect("three units"));
        });
    }
}

/// The count at the close, changed after the sealing and sealed so.
#[test]
fn wrong_count() {
    let mut random = Random::new(SEED + 5);
    for suite in SUITES {
        let book = three_units(&mut random, suite);
        let parts = Parts::of(&book);
        assert_eq!(parts.close, close_fields(&book, 3, 3).concat());
        let count_end = 3 + book.kind.number_bytes();
        for count in [0, 1, 2, 4, 0x103, 0x300, 0xFFFF] {
            let mut changed = parts.clone();
            changed.close[3..count_end].copy_from_slice(&number_in(book.kind, count));
            refuses(&book.key, &changed.joined(), 15, "count changed");
            for units in [3, count] {
                changed.close = close_fields(&book, units, count).concat();
                refuses(
                    &book.key,
                    &changed.joined(),
                    15,
                    "sealed with a wrong count",
                );
            }
            if count < 3 {
                changed.units.truncate(count);
                let calls = 6 * count as u64 + 3;
                let name = "a book of the first units";
                accepts(&book.key, &changed.joined(), count as u64, calls, name);
                changed.close = parts.close.clone();
                changed.close[3..count_end].copy_from_slice(&number_in(book.kind, count));
                refuses(
                    &book.key,
                    &changed.joined(),
                    8,
                    "units dropped, count changed",
                );
                changed.close = parts.close.clone();
                refuses(&book.key, &changed.joined(), 15, "units dropped");
            }
        }
    }
}

/// Parts of a book with another number, under another key, or in another suite.
#[test]
fn parts_of_another_book() {
    let mut random = Random::new(SEED + 6);
    for suite in SUITES {
        let book = three_units(&mut random, suite);
        let parts = Parts::of(&book);
        let mut others = vec![three_units(&mut random, suite), book.clone(), book.clone()];
        others[0].kind = book.kind;
        others[1].number ^= 1;
        others[2].key[15] ^= 1;
        for (cipher, steps) in SUITES.into_iter().filter(|other| *other != suite) {
            let other = Book {
                cipher,
                steps,
                ..book.clone()
            };
            others.push(other);
        }
        for other in others {
            let other = Parts::of(&other);
            let name = "a part of another book";
            for at in 0..3 {
                let mut changed = parts.clone();
                changed.units[at] = other.units[at].clone();
                refuses(&book.key, &changed.joined(), 8, name);
            }
            let mut changed = parts.clone();
            changed.close = other.close;
            refuses(&book.key, &changed.joined(), 8, name);
            if other.opening != parts.opening {
                let mut changed = parts.clone();
                changed.opening = other.opening;
                refuses(&book.key, &changed.joined(), 8, name);
            }
        }
    }
}

/// Two blocks of a unit's ciphertext change places, those too whose numbers have the same low byte.
#[test]
fn blocks_exchanged_in_a_unit() {
    let mut random = Random::new(SEED + 7);
    for suite in [(1, 6), (1, 10), (2, 8), (2, 12)] {
        for (len, pairs) in [
            (2 * 16, &[(0, 1)][..]),
            (5 * 16, &[(0, 1), (1, 2), (0, 3), (3, 4), (0, 4)]),
            (5 * 16 + 7, &[(0, 1), (2, 4)]),
            (
                8_194,
                &[(0, 1), (0, 256), (17, 273), (255, 256), (510, 511)],
            ),
        ] {
            let mut book = some_book(&mut random, suite);
            let ciphertext = book.kind.ciphertext_at();
            let s = (len - 2) / 2;
            book.units = vec![unit(&mut random, 3, 3), unit(&mut random, s, len - 2 - s)];
            let mut parts = Parts::of(&book);
            let whole = parts.units[1].clone();
            for &(one, other) in pairs {
                let name = format!("blocks {one} and {other} of {len} bytes");
                let blocks = swapped(&whole[ciphertext..], one, other);
                parts.units[1] = [&whole[..ciphertext], &blocks].concat();
                refuses(&book.key, &parts.joined(), 8, &name);
            }
        }
    }
}

/// Blocks, ciphertexts and tags change places between two units, and a unit and the close.
#[test]
fn parts_exchanged_between_units() {
    let mut random = Random::new(SEED + 8);
    for suite in SUITES {
        let mut book = some_book(&mut random, suite);
        book.units = (0..3).map(|_| unit(&mut random, 40, 38)).collect();
        let parts = Parts::of(&book);
        let start = book.kind.ciphertext_at();
        let tag = start + 80 + 3;
        let close_tag = book.kind.close_len() - 16;
        let ranges = [
            (start..start + 16, "the first block"),
            (start + 16..start + 32, "the second block"),
            (start + 64..start + 80, "the last block"),
            (start..start + 80, "the ciphertext"),
            (tag..tag + 16, "the tag"),
            (start..tag + 16, "ciphertext and tag"),
        ];
        for (one, other) in [(0, 1), (1, 2), (0, 2)] {
            for (range, name) in &ranges {
                let mut changed = parts.clone();
                let bytes = [one, other].map(|at| parts.units[at][range.clone()].to_vec());
                changed.units[one][range.clone()].copy_from_slice(&bytes[1]);
                changed.units[other][range.clone()].copy_from_slice(&bytes[0]);
                refuses(&book.key, &changed.joined(), 8, name);
            }
        }
        let mut changed = parts.clone();
        changed.close[close_tag..].copy_from_slice(&parts.units[2][tag..]);
        refuses(&book.key, &changed.joined(), 8, "a unit's tag in the close");
        changed = parts.clone();
        changed.units[2][tag..].copy_from_slice(&parts.close[close_tag..]);
        refuses(&book.key, &changed.joined(), 8, "the close's tag in a unit");
    }
}

/// A text that is sealed as another unit's, or with other codes.
#[test]
fn sealed_for_another_place() {
    let mut random = Random::new(SEED + 9);
    for suite in SUITES {
        let book = three_units(&mut random, suite);
        let parts = Parts::of(&book);
        let change = |unit: [Vec<u8>; 3], number: u32, name: &str| {
            let mut changed = parts.clone();
            changed.units[1] = unit.concat();
            refuses(&book.key, &changed.joined(), number, name);
        };
        let text = book.units[1].text();
        let unit = |running, number, codes| unit_fields(&book, running, number, codes, &text);
        change(unit(0, 1, *b"ende"), 8, "the nonce of another unit");
        for (running, name) in [
            (0x1_0001, "a nonce with the same two bytes"),
            (0x100_0001, "a nonce with the same three bytes"),
        ] {
            change(unit(running, 1, *b"ende"), 8, name);
        }
        change(unit(1, 2, *b"ende"), 15, "the number of another unit");
        let mut codes = unit(1, 1, *b"ende");
        let end = codes[0].len();
        codes[0][end - 4..].copy_from_slice(b"deen");
        change(codes, 8, "codes exchanged after the sealing");
    }
}

/// Random books of all suites with one to three changes.
#[test]
fn random_damage() {
    let mut random = Random::new(SEED + 10);
    let mut counts = [0; 17];
    for case in 0..400 {
        let units = random.below(5);
        let suite = random.one_of(&SUITES);
        let book = random_book(&mut random, suite, units, 40);
        let other = random_book(&mut random, suite, 3, 40);
        let (bytes, writer) = written(&book);
        // now and then of another kind
        let (other, _) = written(&Book {
            key: book.key,
            ..other
        });
        for _ in 0..12 {
            let mut damaged = bytes.clone();
            for _ in 0..1 + random.below(3) {
                damage(&mut random, &mut damaged, &other);
            }
            let name = format!("case {case}, seed {:X}", SEED + 10);
            let answer = checked(&book.key, &damaged, &name);
            if damaged == bytes {
                assert_eq!(answer, Ok((writer.units, writer.calls)), "{name}");
            } else {
                assert!(answer.is_err(), "reference: {name}");
            }
            counts[answer.err().unwrap_or(0) as usize] += 1;
        }
    }
    for number in [0, 1, 8, 11, 14, 15] {
        assert!(counts[number] > 5, "{counts:?}");
    }
}
