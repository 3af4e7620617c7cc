//! The program check_book: it reads a key and a book from its standard input and prints one line.
//!
//! The variable CHECK_BOOK_BIN may name the program; else it is target/bin/check_book at the
//! repository's root.

mod common;

use std::fs::{read, write, File};
use std::io::{ErrorKind, Write};
use std::path::Path;
use std::process::{Command, Stdio};
use std::thread::sleep;
use std::time::Duration;

use common::document::root;
use common::parts::{
    close_fields, random_book, some_book, three_units, unit_fields, written, Parts,
};
use common::program::program;
use common::spoiling::{bad_codes, bad_text, damage, some_frames};
use common::writing::unit;
use reference::book::{Book, Kind};
use reference::check::check;
use reference::cipher::SUITES;
use reference::random::Random;
use reference::vectors::{book_vectors, books_vectors, BookVector};

const SEED: u64 = 0x5052_4F47;

/// "a book of at most 65,504 bytes"
const MOST: usize = 65_504;

/// What the program prints when it reads from there.
fn printed(input: Stdio, give: impl FnOnce(Option<std::process::ChildStdin>)) -> String {
    let mut child = Command::new(program("check_book"))
        .stdin(input)
        .stdout(Stdio::piped())
        .stderr(Stdio::piped())
        .spawn()
        .expect("the program starts");
    give(child.stdin.take());
    let output = child.wait_with_output().expect("the program ends");
    assert!(output.status.code().is_some(), "{}", output.status);
    assert_eq!(String::from_utf8_lossy(&output.stderr), "");
    String::from_utf8(output.stdout).expect("text")
}

/// What it prints when these pieces come through a pipe, with a pause after each.
fn printed_for(pieces: &[&[u8]], pause: Duration) -> String {
    let len: usize = pieces.iter().map(|piece| piece.len()).sum();
    printed(Stdio::piped(), |stdin| {
        let mut stdin = stdin.expect("a pipe");
        for piece in pieces {
            match stdin.write_all(piece) {
                Ok(()) => {}
                // the rest of what is too long need not be read
                Err(error) if error.kind() == ErrorKind::BrokenPipe && len > 16 + MOST => return,
                Err(error) => panic!("{error}"),
            }
            if !pause.is_zero() {
                sleep(pause);
            }
        }
    })
}

/// The program prints this line for the key and the book.
fn prints(key: &[u8], book: &[u8], line: &str, name: &str) {
    let text = printed_for(&[&[key, book].concat()], Duration::ZERO);
    assert_eq!(
        text,
        format!("{line}\n"),
        "book {} bytes, {name}",
        book.len()
    );
}

/// The line for a key of 16 bytes and a book, from the reference.
fn line(key: &[u8], book: &[u8]) -> String {
    match check(key, book) {
        _ if book.len() > MOST => "too long".to_string(),
        Ok((units, calls)) => format!("ok units={units} calls={calls}"),
        Err(number) => format!("refused {number}"),
    }
}

/// Known value 8, as printed, and as the writer makes it.
#[test]
fn known_book() {
    let mut random = Random::new(SEED);
    for kind in Kind::ALL {
        let book = Book::known(kind, random.bytes());
        let (bytes, _) = written(&book);
        prints(&book.key, &bytes, "ok units=1 calls=7", "known value 8");
        prints(&random.bytes::<16>(), &bytes, "refused 8", "another key");
    }
}

#[test]
fn book_vectors_hold() {
    for v in book_vectors().into_iter().chain(books_vectors()) {
        let expected = match v.answer {
            Ok((units, calls)) => format!("ok units={units} calls={calls}"),
            Err(number) => format!("refused {number}"),
        };
        prints(&v.key, &v.book, &expected, &format!("line {}", v.line));
    }
}

/// Fewer than 16 key bytes, and a key without a book.
#[test]
fn short_inputs() {
    let mut random = Random::new(SEED + 1);
    let (book, _) = written(&Book::known(Kind::NEWEST, random.bytes()));
    for len in 0..16 {
        let input = random.some_bytes(len);
        prints(&input, &[], "refused 2", "no whole key");
        prints(&book[..len], &[], "refused 2", "a book's start for a key");
    }
    let key: [u8; 16] = random.bytes();
    prints(&key, &[], "refused 14", "no book");
    for len in 1..40 {
        prints(&key, &book[..len], "refused 14", "a book's start");
    }
    let text = printed(Stdio::null(), |_| {});
    assert_eq!(text, "refused 2\n", "no input");
}

/// A refusal's number, what is changed, and the change.
type Change<'a> = (u32, &'a str, &'a dyn Fn(&mut Random, &mut Parts));

/// Each refusal that checking gives of a book that is not too long. 13 would take a much longer one.
#[test]
fn each_refusal() {
    let mut random = Random::new(SEED + 2);
    for suite in SUITES {
        let book = three_units(&mut random, suite);
        let parts = Parts::of(&book);
        prints(
            &book.key,
            &parts.joined(),
            "ok units=3 calls=21",
            "as written",
        );
        let changes: [Change; 10] = [
            (1, "suite", &|_, parts| parts.opening[15] = 7),
            (8, "book number", &|_, parts| parts.opening[9] ^= 1),
            (8, "ciphertext", &|_, parts| parts.units[1][20] ^= 1),
            (8, "the close's tag", &|_, parts| {
                *parts.close.last_mut().expect("a tag") ^= 0x80
            }),
            (11, "languages", &|random, parts| {
                let codes = bad_codes(random);
                parts.units[2] = unit_fields(&book, 2, 2, codes, &book.units[2].text()).concat();
            }),
            (12, "text", &|random, parts| {
                let text = bad_text(random);
                parts.units[1] = unit_fields(&book, 1, 1, *b"ende", &text).concat();
            }),
            (14, "opening field", &|_, parts| parts.opening[0] = 2),
            (14, "no close", &|_, parts| parts.close.clear()),
            (14, "bytes left over", &|_, parts| parts.close.push(0)),
            (15, "count", &|_, parts| {
                parts.close = close_fields(&book, 2, 2).concat();
            }),
        ];
        for (number, name, change) in changes {
            let mut changed = parts.clone();
            change(&mut random, &mut changed);
            let line = format!("refused {number}");
            prints(&book.key, &changed.joined(), &line, name);
        }
    }
}

/// A book of so many bytes, of long units and of short ones; the last one takes what is left.
fn book_of(random: &mut Random, suite: (u8, u8), len: usize, (s, t): (usize, usize)) -> Book {
    let mut book = some_book(random, suite);
    let around = book.kind.unit_len(0, 0);
    let mut left = len - 16 - book.kind.close_len();
    while left >= 2 * (around + 1) + s + t + around {
        book.units.push(unit(random, s, t));
        left -= around + s + t;
    }
    let half = (left - around) / 2;
    book.units.push(unit(random, left - around - half, half));
    book
}

/// Books of the greatest length and about it.
#[test]
fn as_long_as_may_be() {
    let mut random = Random::new(SEED + 3);
    let mut units = Vec::new();
    for (i, segments) in [(1, 0), (100, 90), (2_000, 0), (4_000, 4_000)]
        .into_iter()
        .enumerate()
    {
        for len in [MOST - 1, MOST] {
            let book = book_of(&mut random, SUITES[2 * i + len % 2], len, segments);
            let (mut bytes, writer) = written(&book);
            assert_eq!(bytes.len(), len);
            units.push(writer.units);
            let line = format!("ok units={} calls={}", writer.units, writer.calls);
            prints(&book.key, &bytes, &line, "as long as may be");
            bytes[len - 1] ^= 1;
            prints(&book.key, &bytes, "refused 8", "its last byte changed");
            bytes[len - 1] ^= 1;
            bytes.push(0);
            let line = ["refused 14", "too long"][usize::from(len == MOST)];
            prints(&book.key, &bytes, line, "one byte more");
        }
        let book = book_of(&mut random, SUITES[2 * i], MOST + 1, segments);
        let (bytes, writer) = written(&book);
        assert_eq!(bytes.len(), MOST + 1);
        let counted = check(&book.key, &bytes);
        assert_eq!(counted, Ok((writer.units, writer.calls)));
        prints(&book.key, &bytes, "too long", "a book of one byte too many");
        prints(
            &book.key,
            &bytes[..MOST],
            "refused 14",
            "without its last byte",
        );
    }
    assert!(units.iter().any(|units| *units < 10) && units.iter().any(|units| *units > 1_800));
}

/// What is too long is not looked at.
#[test]
fn too_long() {
    let mut random = Random::new(SEED + 4);
    let (book, _) = written(&Book::known(Kind::NEWEST, random.bytes()));
    for len in [
        MOST + 1,
        MOST + 2,
        MOST + 16,
        MOST + 17,
        65_536,
        65_537,
        131_072,
        1 << 20,
    ] {
        for start in [&book[..], &book[..16], &[]] {
            let mut bytes = random.some_bytes(len);
            bytes[..start.len()].copy_from_slice(start);
            let key: [u8; 16] = random.bytes();
            prints(&key, &bytes, "too long", "no book");
        }
        prints(&[0; 16], &vec![0; len], "too long", "zeros");
    }
    for len in [MOST - 1, MOST] {
        prints(&[0; 16], &vec![0; len], "refused 14", "zeros");
        prints(
            &[0; 16],
            &random.some_bytes(len),
            "refused 14",
            "random bytes",
        );
    }
}

/// Input that comes in pieces, with pauses between them, and from a file.
#[test]
fn pieces() {
    let mut random = Random::new(SEED + 5);
    let short = random_book(&mut random, (2, 12), 2, 9);
    let long = book_of(&mut random, (1, 8), MOST, (300, 200));
    let (long_bytes, short_bytes) = (written(&long).0, written(&short).0);
    let more = [&long_bytes[..], &[0]].concat();
    let pause = Duration::from_millis(3);
    for (key, bytes, sizes) in [
        (&short.key, &short_bytes, &[1, 7, 15, 16, 17, 32][..]),
        (&long.key, &long_bytes, &[4_096, 8_191, 65_504, 65_519]),
        (&long.key, &more, &[4_096, 8_191, 65_520]),
    ] {
        let input = [&key[..], bytes].concat();
        let expected = line(key, bytes) + "\n";
        for size in sizes {
            let pieces: Vec<&[u8]> = input.chunks(*size).collect();
            let text = printed_for(&pieces, pause);
            assert_eq!(text, expected, "{} bytes by {size}", input.len());
        }
        let text = printed_for(&[&[], &input], pause);
        assert_eq!(text, expected, "behind a pause");

        let file = Path::new(env!("CARGO_TARGET_TMPDIR")).join("check_book_input");
        write(&file, &input).expect("a file is written");
        let file = File::open(&file).expect("the file is there");
        let text = printed(Stdio::from(file), |_| {});
        assert_eq!(text, expected, "from a file");
    }
    for len in [0, 1, 15] {
        let pieces: Vec<&[u8]> = short.key[..len].chunks(1).collect();
        assert_eq!(printed_for(&pieces, pause), "refused 2\n", "{len} bytes");
    }
}

#[test]
fn random_books() {
    let mut random = Random::new(SEED + 6);
    let mut accepted = 0;
    for case in 0..120 {
        let suite = random.one_of(&SUITES);
        let units = random.below(6);
        let book = random_book(&mut random, suite, units, 40);
        let (mut bytes, _) = written(&book);
        if case % 3 == 1 {
            let other = bytes.clone();
            damage(&mut random, &mut bytes, &other);
        } else if case % 3 == 2 {
            bytes = some_frames(&mut random, &book);
        }
        let line = line(&book.key, &bytes);
        accepted += usize::from(line.starts_with("ok"));
        prints(
            &book.key,
            &bytes,
            &line,
            &format!("case {case}, seed {:X}", SEED + 6),
        );
    }
    assert!((40..100).contains(&accepted), "{accepted}");
}

/// The stored runs of known value 8 under a key of 00, 01, .. 0F: as printed, as the writer makes it, and as printed
/// but with the close of a wide book, sealed rightly, which is of another kind. The second implementation lays them
/// out again, and says each line.
#[test]
fn stored_runs_of_both_kinds() {
    let key = std::array::from_fn(|i| i as u8);
    let [old, wide] = Kind::ALL.map(|kind| Book::known(kind, key));
    let (mut mixed, _) = old.laid_out();
    mixed.truncate(mixed.len() - Kind::Tag10.close_len());
    mixed.extend(old.close(Kind::Tag14, 1).0);
    for (name, book, expected) in [
        ("case_8", old.laid_out().0, "ok units=1 calls=7"),
        ("case_8_wide", wide.laid_out().0, "ok units=1 calls=7"),
        ("wide_close_in_old_book", mixed, "refused 14"),
    ] {
        assert_stored(name, &key, &book, expected);
    }
}

/// Holds a stored run to its key, its book and its line, which the second implementation says too.
fn assert_stored(name: &str, key: &[u8], book: &[u8], expected: &str) {
    let stored = |end: &str| {
        let file = root().join(format!("tests/check_book/{name}.{end}"));
        read(&file).expect("the stored run is there")
    };
    assert_eq!(stored("stdin"), [key, book].concat(), "{name}");
    assert_eq!(line(key, book), expected, "{name}");
    assert_eq!(
        stored("stdout"),
        format!("{expected}\n").as_bytes(),
        "{name}"
    );
    prints(key, book, expected, name);
}

/// The stored runs of a book of each kind with a unit from en to en behind one from en to fr, which are lines of
/// books.txt.
#[test]
fn stored_runs_of_equal_codes() {
    for (name, kind) in [
        ("equal_codes", Kind::Tag10),
        ("equal_codes_wide", Kind::Tag14),
    ] {
        let pairs_of = |v: &BookVector| {
            let key = v.key[..].try_into().expect("16 bytes");
            let book = Book::taken_apart(&key, &v.book).filter(|book| book.kind == kind)?;
            let pairs = book.units.iter().map(|unit| [unit.from, unit.to]);
            Some(pairs.collect::<Vec<_>>())
        };
        let due = [[*b"en", *b"fr"], [*b"en", *b"en"]];
        let vectors = books_vectors();
        let mut lines = vectors
            .iter()
            .filter(|v| pairs_of(v).is_some_and(|pairs| pairs == due));
        let v = lines.next().expect(name);
        assert!(lines.next().is_none(), "{name}: one line");
        assert_eq!(v.answer, Ok((2, 11)), "{name}: line {}", v.line);
        assert_stored(name, &v.key, &v.book, "ok units=2 calls=11");
    }
}
