//! The test vectors in tests/vectors/.

use std::ops::Range;

use crate::fetch::Fetched;
use crate::state::Block;

/// The lines of a file that are no comments, with their numbers from 1, each cut into `n` fields.
fn cases<'a>(name: &str, file: &'a str, n: usize) -> Vec<(usize, Vec<&'a str>)> {
    let lines = file.lines().enumerate();
    let cases = lines.filter(|(_, line)| !line.starts_with('#'));
    cases
        .map(|(i, line)| {
            let fields: Vec<&str> = line.split(' ').collect();
            assert_eq!(fields.len(), n, "{name}, line {}", i + 1);
            (i + 1, fields)
        })
        .collect()
}

/// A line of cipher.txt.
pub struct CipherVector {
    /// The line's number in the file, from 1.
    pub line: usize,
    pub cipher: u8,
    pub steps: u8,
    pub key: Block,
    pub tweak: Block,
    pub block: Block,
    pub enciphered: Block,
}

/// Every line of cipher.txt but the comments: suite, key, tweak, block and enciphered block in hex.
pub fn cipher_vectors() -> Vec<CipherVector> {
    let mut vectors = Vec::new();
    for (line, fields) in cases("cipher.txt", include_str!("../../vectors/cipher.txt"), 5) {
        let [cipher, steps] = hex(fields[0]);
        vectors.push(CipherVector {
            line,
            cipher,
            steps,
            key: hex(fields[1]),
            tweak: hex(fields[2]),
            block: hex(fields[3]),
            enciphered: hex(fields[4]),
        });
    }
    vectors
}

/// A line of seal.txt.
pub struct SealVector {
    /// The line's number in the file, from 1.
    pub line: usize,
    pub cipher: u8,
    pub steps: u8,
    pub key: Block,
    pub nonce: Vec<u8>,
    pub header: Vec<u8>,
    pub text: Vec<u8>,
    pub sealed: Vec<u8>,
    pub calls: usize,
}

/// Every line of seal.txt but the comments: suite, key, nonce, header, text and sealed bytes in hex,
/// and the number of calls.
pub fn seal_vectors() -> Vec<SealVector> {
    let mut vectors = Vec::new();
    for (line, fields) in cases("seal.txt", include_str!("../../vectors/seal.txt"), 7) {
        let [cipher, steps] = hex(fields[0]);
        vectors.push(SealVector {
            line,
            cipher,
            steps,
            key: hex(fields[1]),
            nonce: bytes(fields[2]),
            header: bytes(fields[3]),
            text: bytes(fields[4]),
            sealed: bytes(fields[5]),
            calls: fields[6].parse().expect(fields[6]),
        });
    }
    vectors
}

/// A line of open.txt.
pub struct OpenVector {
    /// The line's number in the file, from 1.
    pub line: usize,
    pub cipher: u8,
    pub steps: u8,
    pub key: Block,
    pub nonce: Vec<u8>,
    pub header: Vec<u8>,
    pub sealed: Vec<u8>,
    /// The text, or the refusal's number.
    pub answer: Result<Vec<u8>, u32>,
}

/// Every line of open.txt but the comments: suite, key, nonce, header, sealed bytes and text in hex,
/// or `refused:` and a number in place of the text.
pub fn open_vectors() -> Vec<OpenVector> {
    let mut vectors = Vec::new();
    for (line, fields) in cases("open.txt", include_str!("../../vectors/open.txt"), 6) {
        let [cipher, steps] = hex(fields[0]);
        vectors.push(OpenVector {
            line,
            cipher,
            steps,
            key: hex(fields[1]),
            nonce: bytes(fields[2]),
            header: bytes(fields[3]),
            sealed: bytes(fields[4]),
            answer: bytes_or_refusal(fields[5]),
        });
    }
    vectors
}

/// A line of book.txt or books.txt.
pub struct BookVector {
    /// The line's number in the file, from 1.
    pub line: usize,
    pub key: Vec<u8>,
    pub book: Vec<u8>,
    /// Unit count and call total, or the refusal's number.
    pub answer: Result<(usize, usize), u32>,
}

/// Every line of book.txt but the comments: key and book in hex, then `ok:`, unit count, `:` and call
/// total, or `refused:` and a number. The books are of the scope's kind.
pub fn book_vectors() -> Vec<BookVector> {
    checked("book.txt", include_str!("../../vectors/book.txt"))
}

/// Every line of books.txt but the comments, of the same fields. The books are of both kinds.
pub fn books_vectors() -> Vec<BookVector> {
    checked("books.txt", include_str!("../../vectors/books.txt"))
}

fn checked(name: &str, file: &str) -> Vec<BookVector> {
    let mut vectors = Vec::new();
    for (line, fields) in cases(name, file, 3) {
        let number = |text: &str| text.parse().expect(fields[2]);
        vectors.push(BookVector {
            line,
            key: bytes(fields[0]),
            book: bytes(fields[1]),
            answer: match fields[2].split(':').collect::<Vec<_>>()[..] {
                ["ok", units, calls] => Ok((number(units), number(calls))),
                ["refused", number] => Err(number.parse().expect(fields[2])),
                _ => panic!("{}", fields[2]),
            },
        });
    }
    vectors
}

/// A line of fetch.txt.
pub struct FetchVector {
    /// The line's number in the file, from 1.
    pub line: usize,
    pub key: Vec<u8>,
    pub book: Vec<u8>,
    /// Which unit is fetched.
    pub k: u64,
    /// How many bytes the output has.
    pub room: usize,
    /// The unit, or the refusal's number.
    pub answer: Result<Fetched, u32>,
    /// The calls of the cipher that opening the unit takes, which fetching does not report; 0 with a refusal.
    pub calls: usize,
    /// Where the ciphertext part stands; 0..0 for none.
    pub ciphertext: Range<usize>,
}

/// Every line of fetch.txt but the comments: key and book in hex, the unit's number, the room, then source and
/// target in hex and the calls with `:` between them, or `refused:` and a number; start and length of the
/// ciphertext part.
pub fn fetch_vectors() -> Vec<FetchVector> {
    let mut vectors = Vec::new();
    for (line, fields) in cases("fetch.txt", include_str!("../../vectors/fetch.txt"), 7) {
        let number = |i: usize| fields[i].parse().expect(fields[i]);
        let (answer, calls) = match fields[4].split(':').collect::<Vec<_>>()[..] {
            ["refused", number] => (Err(number.parse().expect(fields[4])), 0),
            [source, target, calls] => {
                let (source, target) = (bytes(source), bytes(target));
                let calls = calls.parse().expect(fields[4]);
                (Ok(Fetched { source, target }), calls)
            }
            _ => panic!("{}", fields[4]),
        };
        let (at, len): (usize, usize) = (number(5), number(6));
        vectors.push(FetchVector {
            line,
            key: bytes(fields[0]),
            book: bytes(fields[1]),
            k: fields[2].parse().expect(fields[2]),
            room: number(3),
            answer,
            calls,
            ciphertext: at..at + len,
        });
    }
    vectors
}

/// A line of page.txt.
pub struct PageVector {
    /// The line's number in the file, from 1.
    pub line: usize,
    pub key: Vec<u8>,
    pub book: Vec<u8>,
    /// The typed sentence.
    pub typed: Vec<u8>,
    /// How many bytes the page's buffer has.
    pub room: usize,
    /// The page, or the refusal's number.
    pub answer: Result<Vec<u8>, u32>,
}

/// Every line of page.txt but the comments: key, book and typed sentence in hex, the room, and the page in hex,
/// or `refused:` and a number in place of it.
pub fn page_vectors() -> Vec<PageVector> {
    let mut vectors = Vec::new();
    for (line, fields) in cases("page.txt", include_str!("../../vectors/page.txt"), 5) {
        vectors.push(PageVector {
            line,
            key: bytes(fields[0]),
            book: bytes(fields[1]),
            typed: bytes(fields[2]),
            room: fields[3].parse().expect(fields[3]),
            answer: bytes_or_refusal(fields[4]),
        });
    }
    vectors
}

/// Bytes in hex, or `refused:` and a number.
fn bytes_or_refusal(text: &str) -> Result<Vec<u8>, u32> {
    match text.strip_prefix("refused:") {
        Some(number) => Err(number.parse().expect(number)),
        None => Ok(bytes(text)),
    }
}

/// The bytes of a text of two hex digits each; `-` has none.
fn bytes(text: &str) -> Vec<u8> {
    if text == "-" {
        return Vec::new();
    }
    assert!(text.len().is_multiple_of(2), "{text}");
    let digits = (0..text.len()).step_by(2).map(|i| &text[i..i + 2]);
    digits
        .map(|two| u8::from_str_radix(two, 16).expect(text))
        .collect()
}

/// The bytes of a text of two hex digits each, so many.
fn hex<const N: usize>(text: &str) -> [u8; N] {
    assert_eq!(text.len(), 2 * N, "{text}");
    std::array::from_fn(|i| u8::from_str_radix(&text[2 * i..2 * i + 2], 16).expect(text))
}
