//! Scores and pages in the baseline in C against the reference, so that what is measured is the making of pages;
//! and the data that they are measured on.

use bench::baseline;
use bench::chains::{on_one_chain, slow_segments};
use bench::words::sentence;
use reference::book::{Book, Kind, Unit};
use reference::cipher::SUITES;
use reference::page::page;
use reference::random::Random;
use reference::score::score;
use reference::vectors::page_vectors;

const SEED: u64 = 0x5041_4745;

/// Has the page made in a buffer of so many bytes, and sees that this page or refusal is given, and that no
/// other byte is written.
fn assert_page(
    name: &str,
    key: &[u8],
    book: &[u8],
    typed: &[u8],
    room: usize,
    expected: Result<Vec<u8>, u32>,
) {
    let mut made = vec![0x5A; room];
    let answer = baseline::page(key, book, typed, &mut made);
    assert_eq!(
        answer,
        expected.as_ref().map(Vec::len).map_err(|n| *n),
        "{name}"
    );
    let mut left = expected.unwrap_or_default();
    left.resize(room, 0x5A);
    assert!(made == left, "{name}: the page's buffer");
}

#[test]
fn page_vectors_hold() {
    let vectors = page_vectors();
    assert_eq!(vectors.len(), 60);
    for v in vectors {
        let name = format!("line {}", v.line);
        assert_page(&name, &v.key, &v.book, &v.typed, v.room, v.answer);
    }
}

/// Segments of words, of few letters and of any bytes.
fn text(random: &mut Random, len: usize) -> Vec<u8> {
    match random.below(4) {
        0 => sentence(random, len),
        1 => vec![b'a'; len],
        2 => (0..len).map(|_| random.one_of(b"ab")).collect(),
        _ => random.some_bytes(len),
    }
}

#[test]
fn scores_are_those_of_the_reference() {
    let mut random = Random::new(SEED);
    let mut highest = 0;
    for case in 0..20_000 {
        let len = |random: &mut Random| match random.below(40) {
            0 => random.one_of(&[4_095, 4_096, 4_097, 5_000]),
            1..10 => random.below(5),
            _ => random.below(300),
        };
        let (n, m) = (len(&mut random), len(&mut random));
        let one = text(&mut random, n);
        let other = match random.below(5) {
            0 => one.clone(),
            _ => text(&mut random, m),
        };
        let expected = score(&one, &other);
        let name = format!("seed {SEED:X}, case {case}");
        assert_eq!(baseline::score(&one, &other), expected, "{name}");
        highest += usize::from(expected == 1_000);
    }
    assert!(highest > 1_000, "{highest}");
}

/// Books of both kinds and all suites, some of them changed, and buffers with room and without.
#[test]
fn pages_are_those_of_the_reference() {
    let mut random = Random::new(SEED + 1);
    let mut answers = [[0; 17]; 2];
    for case in 0..1_500 {
        let suite = random.one_of(&SUITES);
        let mut book = Book::random(&mut random, suite);
        book.kind = Kind::ALL[case % 2];
        for _ in 0..random.below(5) {
            let (s, t) = match random.below(20) {
                0 => (4_096 - random.below(3), random.below(40)),
                _ => (1 + random.below(60), random.below(60)),
            };
            book.units.push(Unit {
                from: *b"en",
                to: random.one_of(&[*b"de", *b"de", *b"en"]),
                source: text(&mut random, s),
                target: random.some_bytes(t),
            });
        }
        let (mut bytes, _) = book.laid_out();
        if random.below(4) == 0 {
            let at = random.below(bytes.len());
            bytes[at] = random.one_of(&[0, 1, 2, 0x10, 0x12, 0x14, 0x20, 0x21, 0xFF]);
        }
        let (room, len) = (random.one_of(&[0, 11, 12, 36, 60]), random.below(200));
        let typed = text(&mut random, len);
        let expected = page(&book.key, &bytes, &typed, room);
        answers[case % 2][expected.as_ref().err().map_or(0, |n| *n as usize)] += 1;
        let name = format!("seed {:X}, case {case}", SEED + 1);
        assert_page(&name, &book.key, &bytes, &typed, room, expected);
    }
    for number in [0, 7, 8, 14] {
        assert!(answers.iter().all(|of| of[number] > 15), "{answers:?}");
    }
}

/// Sentences have the length that is asked for, and are not the same; the chosen segments have most of their
/// trigrams on one chain, and no high score.
#[test]
fn what_is_measured() {
    let mut random = Random::new(SEED + 2);
    for len in [0, 1, 20, 60, 4_096] {
        let sentences = [(); 2].map(|()| sentence(&mut random, len));
        assert!(sentences.iter().all(|sentence| sentence.len() == len));
        assert!(len < 3 || sentences[0] != sentences[1], "{len}");
    }
    let text = sentence(&mut random, 4_096);
    assert!(text
        .iter()
        .all(|byte| *byte == b' ' || byte.is_ascii_lowercase()));
    assert!(on_one_chain(&text) < 20);
    let chosen = slow_segments(4_096);
    for segment in &chosen {
        assert_eq!(segment.len(), 4_096);
        assert!(on_one_chain(segment) > 2_000, "{}", on_one_chain(segment));
    }
    assert!(score(&chosen[0], &chosen[1]) < 100);
}
