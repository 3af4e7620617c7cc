//! Opening what was changed after it was sealed: always refused, and nothing is written.

mod common;

use common::sealing::Given;
use common::swapped;
use reference::cipher::SUITES;
use reference::random::Random;

const SEED: u64 = 0x4441_4D47;

/// Header and text lengths of what is damaged.
const LENGTHS: [(usize, usize); 9] = [
    (0, 0),
    (0, 1),
    (25, 0),
    (25, 15),
    (16, 16),
    (1, 17),
    (48, 32),
    (33, 47),
    (40, 100),
];

/// What the library sealed, after it was seen that the library opens it.
fn sealed(random: &mut Random, suite: (u8, u8), n: usize, a: usize, m: usize) -> Given {
    Given::random(random, suite, n, a, m).there_and_back("before the damage")
}

/// Opening is refused by this number, into outputs of the text's length and of more.
fn refused(given: &Given, number: u32, name: &str) {
    let len = given.body.len().saturating_sub(16);
    given.open_gives(len, &Err(number), name);
    given.open_gives(len + 20, &Err(number), name);
}

/// Each byte of what `part` picks is changed, in each bit and in all bits.
fn each_byte(given: &Given, part: fn(&mut Given) -> &mut Vec<u8>, name: &str) -> usize {
    let len = part(&mut given.clone()).len();
    for at in 0..len {
        for change in [1, 2, 4, 8, 16, 32, 64, 128, 255] {
            let mut damaged = given.clone();
            part(&mut damaged)[at] ^= change;
            refused(&damaged, 8, &format!("{name} byte {at} xor {change:02X}"));
        }
    }
    len
}

#[test]
fn changed_bytes() {
    let mut random = Random::new(SEED);
    for suite in SUITES {
        for (a, m) in LENGTHS {
            let n = 1 + random.below(15);
            let given = sealed(&mut random, suite, n, a, m);
            assert_eq!(each_byte(&given, |given| &mut given.body, "sealed"), m + 16);
            assert_eq!(each_byte(&given, |given| &mut given.header, "header"), a);
            assert_eq!(each_byte(&given, |given| &mut given.nonce, "nonce"), n);
            assert_eq!(each_byte(&given, |given| &mut given.key, "key"), 16);
        }
    }
}

/// The other suites do not open it.
#[test]
fn another_suite() {
    let mut random = Random::new(SEED + 1);
    for suite in SUITES {
        for (a, m) in LENGTHS {
            let given = sealed(&mut random, suite, 12, a, m);
            for other in SUITES.into_iter().filter(|other| *other != suite) {
                let mut damaged = given.clone();
                damaged.suite = other;
                refused(&damaged, 8, "another suite");
            }
        }
    }
}

#[test]
fn bytes_taken_away() {
    let mut random = Random::new(SEED + 2);
    for suite in SUITES {
        for (a, m) in LENGTHS {
            let n = 2 + random.below(14);
            let given = sealed(&mut random, suite, n, a, m);
            for len in 0..m + 16 {
                let number = if len < 16 { 5 } else { 8 };
                let start = given.with_body(given.body[..len].to_vec());
                refused(&start, number, "the start alone");
                let end = given.with_body(given.body[m + 16 - len..].to_vec());
                refused(&end, number, "the end alone");
            }
            for len in 0..m {
                let body = [&given.body[..len], &given.body[m..]].concat();
                refused(&given.with_body(body), 8, "the text's end away");
            }
            for len in 0..a {
                let mut damaged = given.clone();
                damaged.header.truncate(len);
                refused(&damaged, 8, "the header's end away");
            }
            for len in 1..n {
                let mut damaged = given.clone();
                damaged.nonce.truncate(len);
                refused(&damaged, 8, "the nonce's end away");
            }
        }
    }
}

#[test]
fn bytes_put_in() {
    let mut random = Random::new(SEED + 3);
    for suite in SUITES {
        for (a, m) in LENGTHS {
            let n = 1 + random.below(14);
            let given = sealed(&mut random, suite, n, a, m);
            for more in [1, 2, 15, 16, 17, 32] {
                for bytes in [vec![0; more], random.some_bytes(more)] {
                    let (ciphertext, tag) = given.body.split_at(m);
                    for (name, body) in [
                        ("before the ciphertext", [&bytes, ciphertext, tag].concat()),
                        ("after the ciphertext", [ciphertext, &bytes, tag].concat()),
                        ("after the tag", [ciphertext, tag, &bytes].concat()),
                    ] {
                        refused(&given.with_body(body), 8, name);
                    }
                    let mut damaged = given.clone();
                    damaged.header.extend(&bytes);
                    refused(&damaged, 8, "after the header");
                    let mut damaged = given.clone();
                    damaged.nonce.extend(&bytes[..more.min(15 - n)]);
                    refused(&damaged, 8, "after the nonce");
                }
            }
            // the header as its last block is filled up
            if a % 16 != 0 {
                let mut damaged = given.clone();
                damaged.header.push(0x80);
                refused(&damaged, 8, "80 after the header");
                damaged.header.resize(a.next_multiple_of(16), 0);
                refused(&damaged, 8, "80 and zeros after the header");
            }
        }
    }
}

/// Blocks of ciphertext and header change places, those too whose numbers have the same low byte.
#[test]
fn blocks_swapped() {
    let mut random = Random::new(SEED + 4);
    for suite in SUITES {
        for (n, last) in [(1, 16), (12, 5), (14, 16)] {
            let given = sealed(&mut random, suite, n, 16 * 300 + last, 16 * 300 + last);
            for (one, other) in [
                (0, 1),
                (0, 256),
                (1, 257),
                (17, 273),
                (43, 299),
                (255, 256),
                (128, 0),
                (298, 299),
            ] {
                let name = format!("blocks {one} and {other} swapped");
                let body = swapped(&given.body, one, other);
                refused(&given.with_body(body), 8, &name);
                let mut damaged = given.clone();
                damaged.header = swapped(&given.header, one, other);
                refused(&damaged, 8, &name);
            }
            if last == 16 {
                refused(&given.with_body(swapped(&given.body, 44, 300)), 8, "last");
            }
        }
    }
}

/// The same where the numbers differ above two bytes.
#[test]
fn far_blocks_swapped() {
    let mut random = Random::new(SEED + 5);
    let len = 16 * 65_540;
    let given = Given::random(&mut random, (1, 6), 12, len, len);
    let sealed = given.with_body(given.sealed());
    sealed.open_gives(len, &Ok(given.body), "as it was sealed");
    for (one, other) in [(0, 65_536), (1, 65_537), (256, 65_536)] {
        let name = format!("blocks {one} and {other} swapped");
        let body = swapped(&sealed.body, one, other);
        sealed.with_body(body).open_gives(len, &Err(8), &name);
        let mut damaged = sealed.clone();
        damaged.header = swapped(&sealed.header, one, other);
        damaged.open_gives(len, &Err(8), &name);
    }
}

/// Header and text blocks change places: what is sealed as the one is not the other.
#[test]
fn header_and_text_exchanged() {
    let mut random = Random::new(SEED + 6);
    for suite in SUITES {
        for len in [16, 32, 48, 20] {
            let given = Given::random(&mut random, suite, 12, len, len);
            let sealed = given.there_and_back("before the exchange");
            let mut damaged = sealed.clone();
            damaged.header = sealed.body[..len].to_vec();
            damaged.body[..len].copy_from_slice(&sealed.header);
            refused(&damaged, 8, "header and ciphertext exchanged");
            let mut damaged = sealed.clone();
            damaged.header = given.body.clone();
            refused(&damaged, 8, "the text as header");
        }
    }
}
