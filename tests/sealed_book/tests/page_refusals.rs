//! Refusals of a page: those of checking in their order, whatever the buffer, and then 7; after each of them
//! the page's buffer and its length are as they were.

mod common;

use common::causes::{first_is_given, sets, small_sets};
use common::paging::{page_gives, paged, Answer};
use common::parts::{random_book, three_units, unit_fields, written, Parts};
use common::refused::{first_of_each_set, random_case, Cause, CAUSES};
use common::spoiling::{bad_openings, damage, some_frames};
use common::UNLISTED;
use reference::check::check;
use reference::cipher::SUITES;
use reference::random::Random;
use sealed_book::raw::{self, ROW_LEN};

const SEED: u64 = 0x5052_4546;

/// A case with these causes, its page in a buffer that has room and in one that has not, which is refused last.
fn case(random: &mut Random, set: &[Cause], name: &str) -> Answer {
    let (key, book) = random_case(random, set);
    let typed = random.some_bytes(7);
    let answer = paged(&key, &book, &typed, 80, name);
    let refused = answer.as_ref().err().copied().unwrap_or(7);
    for room in [0, ROW_LEN - 1] {
        page_gives(&key, &book, &typed, room, &Err(refused), name);
    }
    // it is what checking says
    let checked = raw::check(&key, &book).map_err(|refusal| refusal.number());
    assert_eq!(checked.err(), answer.as_ref().err().copied(), "{name}");
    answer
}

#[test]
fn every_set_of_causes() {
    let counts = first_is_given(SEED, &sets(&CAUSES), 1, case);
    assert_eq!(counts, first_of_each_set());
}

#[test]
fn each_cause_and_each_two() {
    let sets = small_sets(&CAUSES);
    first_is_given(SEED + 1, &sets, 10, case);
}

/// Key lengths, unlisted suites, and books that end early or are none.
#[test]
fn keys_suites_and_openings() {
    let mut random = Random::new(SEED + 2);
    let book = random_book(&mut random, (1, 12), 2, 20);
    let (bytes, _) = written(&book);
    for len in (0..=40).chain([300]) {
        let mut key = random.some_bytes(len);
        let start = len.min(16);
        key[..start].copy_from_slice(&book.key[..start]);
        for room in [0, 23, 24] {
            let answer = paged(&key, &bytes, b"valves", room, "a key's length");
            let refusal = match (len, room) {
                (16, 24) => None,
                (16, _) => Some(7),
                _ => Some(2),
            };
            assert_eq!(answer.err(), refusal, "{len}, {room}");
            if len != 16 {
                page_gives(&key, &[], &[], room, &Err(2), "no book");
            }
        }
    }
    for (opening, number) in bad_openings(&bytes) {
        for room in [0, 24] {
            page_gives(&book.key, &opening, b"", room, &Err(number), "openings");
        }
    }
    for (cipher, steps) in UNLISTED {
        let mut changed = bytes.clone();
        (changed[14], changed[15]) = (cipher, steps);
        for room in [0, 24] {
            page_gives(&book.key, &changed, b"", room, &Err(1), "unlisted");
        }
    }
    for len in 0..bytes.len() {
        for room in [0, 24] {
            page_gives(&book.key, &bytes[..len], b"a", room, &Err(14), "cut");
        }
    }
    for more in [0x00, 0x10, 0x14, 0x20, 0x21] {
        let longer = [&bytes[..], &[more]].concat();
        for room in [0, 24] {
            page_gives(&book.key, &longer, b"a", room, &Err(14), "left over");
        }
    }
}

/// Each byte of a small book changed, in some bits and in all: the refusal is checking's.
#[test]
fn changed_bytes() {
    let mut random = Random::new(SEED + 3);
    for suite in SUITES {
        let book = random_book(&mut random, suite, 2, 12);
        let (bytes, _) = written(&book);
        for at in 0..bytes.len() {
            for change in [0x01, 0x20, 0x80, 0xFF] {
                let mut damaged = bytes.clone();
                damaged[at] ^= change;
                let name = format!("byte {at} ^ {change:02X}, seed {:X}", SEED + 3);
                let refused = check(&book.key, &damaged).expect_err(&name);
                for room in [0, 23, 24, 60] {
                    page_gives(&book.key, &damaged, b"valves", room, &Err(refused), &name);
                }
                let checked = raw::check(&book.key, &damaged);
                assert_eq!(checked.unwrap_err().number(), refused, "{name}");
            }
        }
        for bit in 0..128 {
            let mut key = book.key;
            key[bit / 8] ^= 1 << (bit % 8);
            page_gives(&key, &bytes, b"valves", 24, &Err(8), "another key");
        }
    }
}

/// A seal that is broken in the last unit, or in the close: nothing of the units before it is written.
#[test]
fn refused_late() {
    let mut random = Random::new(SEED + 4);
    for suite in SUITES {
        let book = three_units(&mut random, suite);
        let typed = book.units[0].source.clone();
        let (bytes, _) = written(&book);
        let close = bytes.len() - book.kind.close_len();
        for at in [bytes.len() - 1, close - 1] {
            let mut damaged = bytes.clone();
            damaged[at] ^= 1;
            for room in [0, 12, 36, 50] {
                page_gives(&book.key, &damaged, &typed, room, &Err(8), "a late seal");
            }
        }
        // the last unit has a text that no writer makes, under a right seal
        let mut parts = Parts::of(&book);
        parts.units[2] = unit_fields(&book, 2, 2, *b"ende", &[0, 9, 1, 2]).concat();
        let bytes = parts.joined();
        page_gives(&book.key, &bytes, &typed, 50, &Err(12), "s out of range");
        page_gives(&book.key, &bytes, &typed, 0, &Err(12), "s out of range");
    }
}

/// Random damage, and frames of which some are right: as the reference, and where a page is made, as checking
/// accepts.
#[test]
fn random_damage() {
    let mut random = Random::new(SEED + 6);
    let mut counts = [0; 17];
    for suite in SUITES {
        let [book, other] = [3, 4].map(|units| random_book(&mut random, suite, units, 30));
        let ((bytes, _), (other, _)) = (written(&book), written(&other));
        for case in 0..300 {
            let damaged = match random.below(3) {
                0 => some_frames(&mut random, &book),
                _ => {
                    let mut damaged = bytes.clone();
                    for _ in 0..random.below(3) {
                        damage(&mut random, &mut damaged, &other);
                    }
                    damaged
                }
            };
            let (room, len) = (random.one_of(&[0, 35, 36, 80]), random.below(30));
            let typed = random.some_bytes(len);
            let name = format!("case {case}, seed {:X}", SEED + 6);
            let answer = paged(&book.key, &damaged, &typed, room, &name);
            let checked = raw::check(&book.key, &damaged);
            let refused = answer.err().unwrap_or(0);
            assert_eq!(checked.is_ok(), [0, 7].contains(&refused), "{name}");
            counts[refused as usize] += 1;
        }
    }
    for number in [0, 7, 8, 14] {
        assert!(counts[number] > 50, "{counts:?}");
    }
}
