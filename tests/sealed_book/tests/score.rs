//! Scores: worked by hand, and held to the reference for every length up to some hundred bytes and for long
//! ones, on texts that repeat themselves and on such as do not.

mod common;

use common::paging::{score_gives, scored};
use common::texts::{edited, text, Kind, KINDS};
use reference::random::Random;
use sealed_book::raw::SCORE_MAX;

const SEED: u64 = 0x5343_4F52;

/// The request's example, its cases without runs, and runs that stand several times.
#[test]
fn worked_by_hand() {
    for (one, other, expected) in [
        ("valve", "valves", 857),
        ("", "", 1_000),
        ("a", "a", 1_000),
        ("ab", "ab", 1_000),
        ("ab", "cd", 0),
        ("ab", "ac", 0),
        ("ab", "cb", 0),
        ("a", "ab", 0),
        ("a", "", 0),
        ("ab", "abc", 0),
        ("", "abc", 0),
        ("abc", "abc", 1_000),
        ("aaaa", "aaaaaa", 666),
        ("abcabc", "abc", 400),
        ("banana", "ananas", 750),
        ("abcd", "bcde", 500),
        ("abc", "Abc", 0),
        ("abc", "cba", 0),
    ] {
        let name = format!("{one:?}, {other:?}");
        score_gives(one.as_bytes(), other.as_bytes(), expected, &name);
        assert_eq!(sealed_book::score(one, other), expected, "{name}");
    }
}

/// All pairs of segments of up to two bytes over three of them, which have no trigrams: equal or not.
#[test]
fn without_trigrams() {
    let letters = [0, b'a', 255];
    let mut short: Vec<Vec<u8>> = vec![vec![]];
    for one in letters {
        short.push(vec![one]);
        short.extend(letters.map(|other| vec![one, other]));
    }
    assert_eq!(short.len(), 13);
    for one in &short {
        for other in &short {
            let expected = if one == other { 1_000 } else { 0 };
            score_gives(one, other, expected, &format!("{one:?}, {other:?}"));
            // one trigram on one side
            let longer = [&other[..], b"abc"].concat();
            score_gives(one, &longer[..3], 0, &format!("{one:?}, {longer:?}"));
        }
    }
}

/// Every length up to 300 on one side, with short ones, those around 256, and the same on the other.
#[test]
fn every_length() {
    let mut random = Random::new(SEED);
    let mut seen = [0; 3];
    for len in 0..=300 {
        for kind in KINDS {
            let one = text(&mut random, kind, len);
            for other in [0, 1, 2, 3, 4, 20, 61, 255, 256, 257, 258, 259, 300] {
                let name = format!("{kind:?}, seed {SEED:X}");
                let other = text(&mut random, kind, other);
                let score = scored(&one, &other, &name);
                seen[usize::from(score > 0) + usize::from(score == SCORE_MAX)] += 1;
            }
            let near = edited(&mut random, &one);
            scored(&one, &near, &format!("{kind:?}, edited, seed {SEED:X}"));
        }
    }
    assert!(seen.iter().all(|count| *count > 30), "{seen:?}");
}

/// Texts of one kind with texts of another.
#[test]
fn two_kinds() {
    let mut random = Random::new(SEED + 1);
    for one in KINDS {
        for other in KINDS {
            for _ in 0..40 {
                let (n, m) = (random.below(300), random.below(300));
                let name = format!("{one:?} and {other:?}, seed {:X}", SEED + 1);
                let [one, other] = [(one, n), (other, m)].map(|(k, n)| text(&mut random, k, n));
                scored(&one, &other, &name);
                let both = [&one[..], &other].concat();
                scored(&one, &both, &name);
                scored(&both, &other, &name);
            }
        }
    }
}

/// Lengths around 4,096 and beyond on one side, with those up to 4,096 on the other.
#[test]
fn long_segments() {
    let mut random = Random::new(SEED + 2);
    for kind in KINDS {
        for long in [
            1_000, 4_094, 4_095, 4_096, 4_097, 4_098, 4_099, 5_000, 20_000, 70_000,
        ] {
            let one = text(&mut random, kind, long);
            for short in [0, 1, 2, 3, 20, 256, 257, 258, 259, 1_024, 4_095, 4_096] {
                let name = format!("{kind:?}, seed {:X}", SEED + 2);
                let other = text(&mut random, kind, short);
                scored(&one, &other, &name);
            }
        }
    }
}

/// Both sides over 4,096 bytes.
#[test]
fn both_long() {
    let mut random = Random::new(SEED + 3);
    for kind in KINDS {
        for (n, m) in [
            (4_097, 4_097),
            (4_098, 4_099),
            (5_000, 4_097),
            (5_000, 20_000),
        ] {
            let name = format!("{kind:?}, seed {:X}", SEED + 3);
            let [one, other] = [n, m].map(|len| text(&mut random, kind, len));
            scored(&one, &other, &name);
        }
        let one = text(&mut random, kind, 4_200);
        let near = edited(&mut random, &one);
        scored(
            &one,
            &near,
            &format!("{kind:?}, edited, seed {:X}", SEED + 3),
        );
    }
}

/// More trigrams, and more of one and the same, than two bytes count.
#[test]
fn longest_segments() {
    let mut random = Random::new(SEED + 5);
    score_gives(
        &[b'a'; 70_002],
        &[b'a'; 80_002],
        933,
        "140,000,000 / 150,000",
    );
    for kind in [
        Kind::OneLetter,
        Kind::Period(2),
        Kind::Period(3),
        Kind::TwoLetters,
        Kind::Words,
    ] {
        for (n, m) in [(66_000, 5_000), (70_000, 70_001)] {
            let [one, other] = [n, m].map(|len| text(&mut random, kind, len));
            scored(&one, &other, &format!("{kind:?}, seed {:X}", SEED + 5));
        }
    }
}

/// A segment with itself has the highest score, and with one of other bytes the lowest.
#[test]
fn itself() {
    let mut random = Random::new(SEED + 4);
    for kind in KINDS {
        for len in (0..=300).chain([4_095, 4_096, 4_097, 5_000]) {
            let one = text(&mut random, kind, len);
            score_gives(&one, &one, 1_000, &format!("{kind:?}, itself"));
        }
    }
    for len in 3..=300 {
        let capitals = vec![b'A'; len];
        let one = text(&mut random, Kind::Words, len);
        score_gives(&one, &capitals, 0, "no trigram is shared");
    }
}

/// Of a segment of trigrams that all differ, one byte changed at a time: the trigrams that have it are gone.
#[test]
fn each_byte_changed() {
    let one: Vec<u8> = (0..60).collect();
    for at in 0..one.len() {
        for change in [0x80, 0xC0, 0xFF] {
            let mut other = one.clone();
            other[at] ^= change;
            // its first byte and its last are in one trigram, those beside them in two
            let gone = (at + 1).min(60 - at).min(3) as u32;
            let expected = 2_000 * (58 - gone) / 116;
            score_gives(&one, &other, expected, &format!("byte {at} ^ {change:02X}"));
        }
    }
}
