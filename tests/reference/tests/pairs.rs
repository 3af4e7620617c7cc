//! The rule for the two codes of a unit, held against the earlier one: "Every book accepted before is accepted still."
//! "Books with a pair like en, en, under either header tag, join those that checking accepts".

use reference::book::{languages_allowed, Book, Kind, Unit};
use reference::check::{check, check_under};
use reference::cipher::SUITES;
use reference::random::Random;
use reference::vectors::{book_vectors, books_vectors, BookVector};

/// The earlier rule: "Languages are letters a to z, and the two codes differ."
fn allowed_before(from: [u8; 2], to: [u8; 2]) -> bool {
    let letter = |byte: u8| (b'a'..=b'z').contains(&byte);
    [from, to].into_iter().flatten().all(letter) && from != to
}

/// All codes of two letters.
fn codes() -> impl Iterator<Item = [u8; 2]> {
    let letters = b'a'..=b'z';
    letters.flat_map(|first| (b'a'..=b'z').map(move |second| [first, second]))
}

/// Of all pairs of codes of two letters, those of a code with itself are what the earlier rule refused.
#[test]
fn pairs_of_letters() {
    let (mut before, mut now) = (0, 0);
    for from in codes() {
        for to in codes() {
            before += usize::from(allowed_before(from, to));
            now += usize::from(languages_allowed(from, to));
        }
    }
    assert_eq!((before, now), (676 * 675, 676 * 676));
}

/// Where the earlier rule allows a pair, the rule does; and the rule alone allows exactly two equal codes of letters.
#[test]
fn random_pairs() {
    let mut random = Random::new(31);
    let mut counts = [0; 3];
    for _ in 0..200_000 {
        let mut codes = random.bytes::<4>();
        for byte in &mut codes {
            if random.below(12) > 0 {
                *byte = b'a' + *byte % 3;
            }
        }
        let [f0, f1, t0, t1] = codes;
        let (from, to) = ([f0, f1], [t0, t1]);
        let both = (allowed_before(from, to), languages_allowed(from, to));
        let letters = codes.iter().all(u8::is_ascii_lowercase);
        let expected = match letters {
            false => (false, false),
            true => (from != to, true),
        };
        assert_eq!(both, expected, "{codes:?}");
        counts[usize::from(both.0) + usize::from(both.1)] += 1;
    }
    assert!(counts.into_iter().all(|count| count > 5_000), "{counts:?}");
}

/// The lines of a file whose answer the earlier rule would have had otherwise.
fn changed(vectors: &[BookVector]) -> Vec<usize> {
    let changed = vectors.iter().filter(|v| {
        let before = check_under(allowed_before, &v.key, &v.book);
        before != check(&v.key, &v.book)
    });
    changed.map(|v| v.line).collect()
}

/// Of book.txt no line has another answer than under the earlier rule. Of books.txt those have that have a unit with
/// equal codes, which the earlier rule refused with 11.
#[test]
fn vectors_of_both_rules() {
    assert_eq!(changed(&book_vectors()), []);
    let books = books_vectors();
    let changed = changed(&books);
    let mut kinds = Vec::new();
    for v in books.iter().filter(|v| changed.contains(&v.line)) {
        let before = check_under(allowed_before, &v.key, &v.book);
        assert_eq!(before, Err(11), "line {}", v.line);
        if v.answer.is_ok() {
            kinds.push(Kind::of(&v.book).expect("a book"));
        }
    }
    let count = |kind| kinds.iter().filter(|other| **other == kind).count();
    assert_eq!(Kind::ALL.map(count), [1, 5]);
}

/// A unit with short segments, whose codes are the same now and then, or have a byte that is no letter.
fn some_unit(random: &mut Random) -> Unit {
    let mut codes = *b"ende";
    match random.below(8) {
        0..3 => codes = *b"enen",
        3 => codes = *b"aaaa",
        4 if random.below(3) == 0 => {
            let byte = random.one_of(b"\0N`{");
            codes = [b'e', byte, b'e', byte];
        }
        5 if random.below(3) == 0 => codes[random.below(4)] = b'A',
        _ => (),
    }
    let [f0, f1, t0, t1] = codes;
    let (s, t) = match random.below(20) {
        0 => (0, 4),
        _ => (1 + random.below(20), random.below(20)),
    };
    Unit {
        from: [f0, f1],
        to: [t0, t1],
        source: random.some_bytes(s),
        target: random.some_bytes(t),
    }
}

/// Random books of either kind, some of them changed. What the earlier rule accepts has the same numbers; what it
/// refuses with another number than 11 is refused with that number; and of a book as it is laid out that it refuses for
/// equal codes alone the rule accepts all units.
#[test]
fn every_book_accepted_before() {
    let mut random = Random::new(32);
    // accepted by both, by the rule alone, refused with the same number, with another
    let mut counts = [[0; 4]; 2];
    for case in 0..8_000 {
        let suite = random.one_of(&SUITES);
        let mut book = Book::random(&mut random, suite);
        book.kind = Kind::ALL[case % 2];
        for _ in 0..random.below(4) {
            book.units.push(some_unit(&mut random));
        }
        let (mut bytes, calls) = book.laid_out();
        let damaged = random.below(4) == 0;
        if damaged {
            let at = random.below(bytes.len());
            bytes[at] = random.one_of(&[0, 1, 0x10, 0x14, 0x20, 0x21, b'e', b'n', 0xFF]);
        }
        let before = check_under(allowed_before, &book.key, &bytes);
        let now = check(&book.key, &bytes);
        let name = format!("case {case}");
        let letters = |unit: &Unit| {
            let codes = [unit.from, unit.to].concat();
            codes.iter().all(u8::is_ascii_lowercase)
        };
        let which = match (before, now) {
            (Ok(_), _) => {
                assert_eq!(now, before, "{name}");
                0
            }
            (Err(11), Ok(_)) => {
                assert!(book.units.iter().any(|unit| unit.from == unit.to), "{name}");
                assert!(book.units.iter().all(letters), "{name}");
                1
            }
            (Err(11), Err(number)) if number != 11 => 3,
            _ => {
                assert_eq!(now, before, "{name}");
                2
            }
        };
        counts[case % 2][which] += 1;
        if !damaged && book.units.iter().all(letters) {
            let lengths = book.units.iter().all(|unit| !unit.source.is_empty());
            let whole = (book.units.len() as u64, calls as u64);
            let expected = if lengths { Ok(whole) } else { Err(12) };
            assert_eq!(now, expected, "{name}");
        }
    }
    assert!(
        counts.as_flattened().iter().all(|count| *count > 100),
        "{counts:?}"
    );
}
