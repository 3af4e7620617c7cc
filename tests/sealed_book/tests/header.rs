//! The C header: a client in C is compiled against it, linked with the library, and held to the reference.

mod common;

use std::env;
use std::path::PathBuf;
use std::process::Command;

use common::document::read;
use common::hex;
use common::program::archive;
use reference::sealing::{header_limit, text_limit};
use reference::writer::{start, Answer, Writer};
use sealed_book::{raw, Refusal};

/// What the client says about version, lengths and limits: those of the crate for Rust, and of sealing the
/// reference's.
fn about_lengths() -> Vec<String> {
    let lengths = [
        raw::KEY_LEN,
        raw::BLOCK_LEN,
        raw::TAG_LEN,
        raw::NONCE_MAX,
        raw::LEN,
        raw::SEGMENT_MAX,
        raw::UNIT_MAX,
        raw::UNITS_MAX as usize,
        raw::CODE_LEN,
        raw::CODE_ROOM,
        raw::FIRST_UNIT,
        raw::CLOSE_ROOM,
        raw::ROW_LEN,
        raw::SCORE_MAX as usize,
    ];
    let [unit, book] = [raw::unit_room(5, 6), raw::book_room(1, 11)];
    let longest = raw::book_room(16_777_215, 16_777_215 * 8_192);
    let mut lines = vec![
        "version 4".to_string(),
        format!("lengths {}", lengths.map(|len| len.to_string()).join(" ")),
        format!("rooms {unit} {book} {longest}"),
    ];
    lines.extend((1..=15).map(|n| format!("limits {n} {} {}", header_limit(n), text_limit(n))));
    lines
}

/// What the client says about its book, from the reference.
fn about_the_book() -> Vec<String> {
    let mut book = [0xFF; 92];
    let passed = |(writer, answer): (Writer, Answer)| {
        assert_eq!(answer, Ok(()));
        writer
    };
    let started = passed(start(1, 10, &[0; 16], 7, &mut book));
    let added = passed(started.add(&mut book, *b"en", *b"de", b"valve", b"Ventil"));
    let closed = passed(added.close(&mut book));
    let [started, added, closed] = [started, added, closed].map(|writer| hex(&writer.encoded()));
    let untouched = hex(&[0xFF; 12]);
    let unit = hex(b"valveVentil\xFF");
    vec![
        format!("start 0 {started}"),
        format!("add 0 {added}"),
        format!("languages 11 {added}"),
        format!("languages 11 {added}"),
        format!("segment 12 {added}"),
        format!("short 7 {added}"),
        format!("close 0 {closed}"),
        format!("closed 10 {}", hex(&book)),
        "place 88 units 1 calls 7".to_string(),
        "check 14 units 7 calls 8".to_string(),
        "check 0 units 1 calls 7".to_string(),
        format!("fetch 7 {untouched}"),
        "source 7 target 8".to_string(),
        format!("fetch 16 {untouched}"),
        "source 7 target 8".to_string(),
        format!("fetch 0 {unit}"),
        "source 5 target 6".to_string(),
        format!("fetch at 0 {unit}"),
        "source 5 target 6 next 62".to_string(),
        format!("fetch at 16 {unit}"),
        "source 7 target 8 next 62".to_string(),
        "fetch 2 ".to_string(),
        "ciphertext 30 13".to_string(),
        "ciphertext 0 0".to_string(),
        "ciphertext 0 0".to_string(),
    ]
}

/// What it says of a book with a unit whose two codes are the same, from the reference.
fn same_codes() -> Vec<String> {
    let mut book = [0; 88];
    let (started, _) = start(1, 10, &[0; 16], 9, &mut book);
    let (added, answer) = started.add(&mut book, *b"en", *b"en", b"valve", b"valves");
    assert_eq!(answer, Ok(()));
    let (_, answer) = added.close(&mut book);
    assert_eq!(answer, Ok(()));
    let en = hex(b"en\0\0");
    vec![
        format!("same 0 {}", hex(&added.encoded())),
        format!("same 0 {}", hex(&book)),
        "check 0 units 1 calls 7".to_string(),
        format!("fetch 0 {}", hex(b"valvevalves\xFF")),
        "source 5 target 6".to_string(),
        format!("unit 0 {en}"),
        format!("to 2 {en}"),
        "at 16 from 2 ciphertext 30 13 next 62".to_string(),
        format!("page 0 {}", hex(b"    5   857\n")),
        "check 8 units 7 calls 8".to_string(),
        "check 11 units 7 calls 8".to_string(),
    ]
}

/// What it says of scores and of the book's page; the rows are the request's, and one of 6,000 / 6.
fn pages() -> Vec<String> {
    let untouched = hex(&[0xFF; 14]);
    let page = |row: &str| hex(row.as_bytes()) + &hex(&[0xFF; 2]);
    vec![
        "scores 857 857 1000 1000 0".to_string(),
        format!("page 7 {untouched}"),
        "len 9".to_string(),
        format!("page 8 {untouched}"),
        "len 9".to_string(),
        format!("page 0 {}", page("    5   857\n")),
        "len 12".to_string(),
        format!("page 0 {}", page("    5     0\n")),
        "len 12".to_string(),
        format!("page 0 {}", page("    5  1000\n")),
        "len 12".to_string(),
        "page 2 ".to_string(),
        "len 9".to_string(),
        "page 0 ".to_string(),
        "len 0".to_string(),
    ]
}

/// What it says of the book in the clear.
fn in_the_clear() -> Vec<String> {
    let untouched = hex(&[0xFF; 4]);
    let [en, de] = [b"en\0\0", b"de\0\0"].map(|code| hex(code));
    let unit = [
        format!("to 2 {de}"),
        "from 2 ciphertext 30 13 next 62".to_string(),
    ];
    let mut lines = vec![
        "info 14 7 8 9".to_string(),
        "info 0 1 10 7".to_string(),
        format!("unit at 14 {untouched}"),
        format!("unit at 0 {en}"),
    ];
    lines.extend(unit.clone());
    lines.extend([
        format!("unit at 16 {de}"),
        format!("unit 14 {untouched}"),
        format!("unit 16 {untouched}"),
        format!("unit 0 {en}"),
        unit[0].clone(),
        format!("at 16 {}", unit[1]),
    ]);
    lines
}

/// The words of each refusal: those of the crate for Rust.
fn texts() -> Vec<String> {
    let text = |number: u32| match Refusal::from_number(number) {
        Some(refusal) => refusal.to_string(),
        None if number == 0 => "done".to_string(),
        None => "no refusal has this number".to_string(),
    };
    (0..=40)
        .map(|number| format!("text {number} {}", text(number)))
        .collect()
}

/// What it says last.
fn at_last() -> Vec<String> {
    let zeros = hex(&[0; 64]);
    vec![
        "check 8 units 7 calls 8".to_string(),
        "check 2 units 7 calls 8".to_string(),
        "check 14 units 7 calls 8".to_string(),
        format!("none 2 {zeros}"),
        format!("zeros 9 {zeros}"),
    ]
}

#[test]
fn client_in_c() {
    let here = PathBuf::from(env!("CARGO_MANIFEST_DIR"));
    let root = here.join("../..");
    let program = PathBuf::from(env!("CARGO_TARGET_TMPDIR")).join("client");

    let compiled = Command::new(env::var_os("CC").unwrap_or_else(|| "cc".into()))
        .args(["-std=c99", "-Wall", "-Wextra", "-Werror", "-pedantic", "-I"])
        .arg(root.join("include"))
        .arg(here.join("tests/c/client.c"))
        .arg(archive())
        .arg("-o")
        .arg(&program)
        .status()
        .expect("a C compiler runs");
    assert!(compiled.success(), "the client compiles and links");

    let output = Command::new(&program).output().expect("the client runs");
    assert!(output.status.success());

    let zero = [0; 16];
    let scream = reference::cipher::encipher(1, 6, &zero, &zero, &zero).expect("a listed suite");
    let iscream = reference::cipher::encipher(2, 12, &zero, &zero, &zero).expect("a listed suite");
    let zeros = hex(&[0; 40]);
    let blocks = format!("{0}{0}{1}", hex(&iscream), hex(&[0; 8]));
    let seal = |suite: (u8, u8), nonce: &[u8], header: &[u8], text: &[u8]| {
        let sealed = reference::sealing::seal(suite.0, suite.1, &zero, nonce, header, text, 36);
        hex(&sealed.expect("within the limits").0)
    };
    let sealed = seal((1, 10), &[0; 12], &[0; 5], &[0; 20]) + &hex(&[0; 4]);
    let opened = hex(&[0; 20]) + &hex(&[0xFF; 4]);
    let untouched = hex(&[0xFF; 24]);
    let expected = [
        format!("encipher 0 {}", hex(&scream)),
        format!("decipher 0 {}", hex(&zero)),
        format!("unlisted 1 {}", hex(&zero)),
        format!("blocks 0 {blocks}"),
        format!("back 0 {zeros}"),
        format!("refused 1 {zeros}"),
        "empty 0 ".to_string(),
        "empty 0 ".to_string(),
        format!("seal 0 {sealed}"),
        "len 36 calls 4".to_string(),
        format!("open 0 {opened}"),
        "len 20".to_string(),
        format!("key 2 {zeros}"),
        "len 7 calls 8".to_string(),
        format!("tag 8 {untouched}"),
        "len 7".to_string(),
        format!("seal 0 {}", seal((2, 12), &[0], &[], &[])),
        "len 16 calls 1".to_string(),
        "open 0 ".to_string(),
        "len 0".to_string(),
        "none 2 ".to_string(),
    ];
    let text = String::from_utf8(output.stdout).expect("text");
    let book = [
        about_the_book(),
        pages(),
        in_the_clear(),
        same_codes(),
        texts(),
        at_last(),
    ]
    .concat();
    let expected = [&about_lengths()[..], &expected, &book].concat();
    assert_eq!(text.lines().collect::<Vec<_>>(), expected);
}

/// "11's cause is now exactly a byte that is no letter a to z": the words of 11, in the crate, in the
/// header and on the page of refusals.
#[test]
fn text_of_11() {
    let refusal = Refusal::from_number(11).expect("a refusal");
    let text = "a language code has a byte that is no letter a to z";
    assert_eq!(refusal.to_string(), text);
    let header = read("include/sealed_book.h");
    let lines = |start: &str| {
        let lines = header.lines().filter(|line| line.contains(start));
        lines.collect::<Vec<_>>()
    };
    for (start, due) in [
        ("#define SB_LANGUAGES ", format!("/* {text} */")),
        ("case SB_LANGUAGES:", format!("return \"{text}\";")),
    ] {
        let [line] = lines(start)[..] else {
            panic!("one line with {start}");
        };
        assert!(line.ends_with(&due), "{line}");
    }
    let row = format!("| 11 | `SB_LANGUAGES` | {text} |");
    assert!(read("docs/REFUSALS.md").contains(&row), "{row}");
}

/// The lengths and limits are those of the scope and of the requests.
#[test]
fn lengths_and_limits() {
    assert_eq!((raw::KEY_LEN, raw::BLOCK_LEN, raw::TAG_LEN), (16, 16, 16));
    assert_eq!((raw::NONCE_MAX, raw::LEN), (15, 64));
    assert_eq!((raw::SEGMENT_MAX, raw::UNIT_MAX), (4_096, 8_192));
    // "at most 16,777,215 units"
    assert_eq!((raw::UNITS_MAX, raw::CODE_LEN), (16_777_215, 2));
    // "source length .. in 5 columns, two blanks, score in 4, a line feed"; "1,000 for equal segments"
    assert_eq!((raw::ROW_LEN, raw::SCORE_MAX), (5 + 2 + 4 + 1, 1_000));
    // "A book takes 16 + the sum of (33 + s + t) + 24 bytes", with numbers of 4 bytes where it had 2: "88 bytes"
    assert_eq!((raw::FIRST_UNIT, raw::CLOSE_ROOM), (16, 24 + 2));
    assert_eq!(
        (raw::unit_room(5, 6), raw::book_room(1, 11)),
        (33 + 2 + 11, 88)
    );
    for n in 1..=raw::NONCE_MAX {
        assert_eq!(raw::header_max(n), header_limit(n), "{n}");
        assert_eq!(raw::text_max(n), text_limit(n), "{n}");
    }
    assert_eq!(raw::unit_room(usize::MAX, 1), usize::MAX);
    assert_eq!(raw::book_room(usize::MAX, 0), usize::MAX);
    assert_eq!(raw::book_room(0, usize::MAX), usize::MAX);
}
