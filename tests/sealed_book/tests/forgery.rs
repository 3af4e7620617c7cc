//! What the mode of version 1 does not protect: sealed bytes of another text, made from those of a first one
//! without the key, which opening, checking and fetching accept. docs/SECURITY.md says this to the user; these
//! tests see that it is so, and that what is said against it helps.

mod common;

use common::checking::{accepts, refuses};
use common::fetching::{answer_of, fetch_gives, Which, ROOM};
use common::parts::{random_book, three_units, written, Parts};
use common::sealing::Given;
use common::writing::unit;
use reference::book::{Book, Unit};
use reference::cipher::SUITES;
use reference::fetch::Fetched;
use reference::random::Random;
use sealed_book::raw;

const SEED: u64 = 0x464F_5247;

/// The sum of the blocks.
fn sum(blocks: &[u8]) -> [u8; 16] {
    let mut sum = [0; 16];
    for block in blocks.chunks(16) {
        for (byte, added) in sum.iter_mut().zip(block) {
            *byte ^= added;
        }
    }
    sum
}

/// The bytes, of a text or of a ciphertext, without the j blocks before the last one, and with this sum added
/// to the last one.
fn shortened(bytes: &[u8], j: usize, added: &[u8; 16]) -> Vec<u8> {
    let last = (bytes.len() - 1) / 16 * 16;
    let mut end = bytes[last..].to_vec();
    for (byte, added) in end.iter_mut().zip(added) {
        *byte ^= added;
    }
    [&bytes[..last - 16 * j], &end].concat()
}

/// The j blocks before the last one.
fn before_last(text: &[u8], j: usize) -> &[u8] {
    let last = (text.len() - 1) / 16 * 16;
    &text[last - 16 * j..last]
}

/// The book with another ciphertext in unit k, and its length in field 11. This takes no key.
fn with_ciphertext(book: &[u8], k: u64, new: impl Fn(&[u8]) -> Vec<u8>) -> Vec<u8> {
    let part = raw::unit(book, k).expect("a unit").ciphertext;
    let ciphertext = new(&book[part.clone()]);
    let len = (ciphertext.len() as u16).to_be_bytes();
    let [before, behind] = [&book[..part.start - 2], &book[part.end..]];
    [before, &len, &ciphertext, behind].concat()
}

/// The book with unit k shortened.
fn forged(book: &[u8], k: u64, j: usize, added: &[u8; 16]) -> Vec<u8> {
    with_ciphertext(book, k, |ciphertext| shortened(ciphertext, j, added))
}

/// What is fetched of this text: "a two-byte source length s, source, target"; a refusal where s is out of
/// range.
fn said(text: &[u8]) -> Result<Fetched, u32> {
    let s = usize::from(u16::from_be_bytes([text[0], text[1]]));
    match text[2..].split_at_checked(s) {
        Some((source, target)) if (1..=4_096).contains(&s) && target.len() <= 4_096 => {
            Ok(Fetched {
                source: source.to_vec(),
                target: target.to_vec(),
            })
        }
        _ => Err(12),
    }
}

/// Unit k of the forged book says this text, which has j blocks less than the one that was written; with that
/// the book is accepted, or refused for the s of that text alone. The other units are as they were.
fn says(book: &Book, forged: &[u8], k: u64, j: usize, text: &[u8], name: &str) {
    let (bytes, writer) = written(book);
    assert_eq!(forged.len(), bytes.len() - 16 * j, "{name}");
    let answer = said(text);
    match answer {
        Ok(_) => accepts(
            &book.key,
            forged,
            writer.units,
            writer.calls - j as u64,
            name,
        ),
        Err(number) => refuses(&book.key, forged, number, name),
    }
    let at = raw::unit(forged, k).expect("a unit").at;
    for which in [Which::Walked(k), Which::Placed(k, at)] {
        assert_eq!(answer_of(&book.key, forged, which, ROOM), answer, "{name}");
        fetch_gives(&book.key, forged, which, ROOM, &answer, name);
    }
    for other in (0..writer.units).filter(|other| *other != k) {
        let which = Which::Walked(other);
        let before = answer_of(&book.key, &bytes, which, ROOM);
        fetch_gives(&book.key, forged, which, ROOM, &before, name);
    }
}

/// A book of three units, the middle one with a text of so many blocks.
fn with_blocks(random: &mut Random, suite: (u8, u8), s: usize, blocks: usize) -> Book {
    let mut book = random_book(random, suite, 3, 40);
    book.units[1] = unit(random, s, 16 * blocks - 2 - s);
    book
}

/// Of a text that is known and has whole blocks, two at least, any number of blocks before the last one goes.
#[test]
fn known_text() {
    let mut random = Random::new(SEED);
    for suite in SUITES {
        for (s, blocks) in [(1, 2), (9, 5), (14, 3), (60, 6), (4_096, 512)] {
            let book = with_blocks(&mut random, suite, s, blocks);
            let (bytes, _) = written(&book);
            let text = book.units[1].text();
            let mut others = 0;
            for j in (1..blocks).filter(|j| blocks < 10 || j % 100 < 2) {
                let name = format!("{j} of {blocks} blocks, {suite:?}, seed {SEED:X}");
                let added = sum(before_last(&text, j));
                let shorter = shortened(&text, j, &added);
                says(&book, &forged(&bytes, 1, j, &added), 1, j, &shorter, &name);
                // the source stands whole before the blocks that are taken away: only the target is another
                if 2 + s <= 16 * (blocks - 1 - j) {
                    let unit = said(&shorter).expect("s is as it was");
                    assert_eq!(unit.source, book.units[1].source, "{name}");
                    assert_ne!(unit.target, book.units[1].target, "{name}");
                    others += 1;
                }
                // with another sum it is seen
                let mut added = added;
                added[random.below(16)] ^= 1;
                let name = format!("another sum, {name}");
                refuses(&book.key, &forged(&bytes, 1, j, &added), 8, &name);
            }
            assert!(others > 0 || blocks < 4, "{s}, {blocks}");
        }
    }
}

/// Of the text only the block right before the last one is known: that is enough to take it away. A wrong
/// guess is seen.
#[test]
fn one_known_block() {
    let mut random = Random::new(SEED + 5);
    let known = *b"Call the service";
    for suite in SUITES {
        for blocks in 3..=7 {
            let name = format!("{blocks} blocks, {suite:?}, seed {:X}", SEED + 5);
            let mut book = with_blocks(&mut random, suite, 9, blocks);
            // before the target the text has two bytes of length, and nine of source
            let at = 16 * (blocks - 2) - 11;
            book.units[1].target[at..at + 16].copy_from_slice(&known);
            let (bytes, _) = written(&book);
            let shorter = shortened(&book.units[1].text(), 1, &known);
            says(&book, &forged(&bytes, 1, 1, &known), 1, 1, &shorter, &name);

            let guess = b"Call the Service";
            refuses(&book.key, &forged(&bytes, 1, 1, guess), 8, &name);
        }
    }
}

/// Two equal blocks right before the last one go, whatever they are and however long the text is; so does any
/// run of blocks there whose sum is zero. Equal blocks that stand elsewhere do not.
#[test]
fn two_equal_blocks() {
    let mut random = Random::new(SEED + 1);
    for suite in SUITES {
        for end in 1..=16 {
            let mut book = with_blocks(&mut random, suite, 30, 2);
            let line = random.some_bytes(16);
            let rest = random.some_bytes(end);
            book.units[1].target = [&line, &line, &rest[..]].concat();
            let (bytes, _) = written(&book);
            let name = format!("{end} bytes last, {suite:?}, seed {:X}", SEED + 1);
            let forged = forged(&bytes, 1, 2, &[0; 16]);
            let without = Unit {
                target: rest,
                ..book.units[1].clone()
            };
            says(&book, &forged, 1, 2, &without.text(), &name);

            // and where they differ it is seen
            book.units[1].target[16 + random.below(16)] ^= 1;
            let (bytes, _) = written(&book);
            let forged = self::forged(&bytes, 1, 2, &[0; 16]);
            refuses(&book.key, &forged, 8, &name);

            // one, another, and the same again
            let other = random.some_bytes(16);
            let rest = random.some_bytes(end);
            book.units[1].target = [&line, &other, &line, &other, &rest[..]].concat();
            let (bytes, _) = written(&book);
            let forged = self::forged(&bytes, 1, 4, &[0; 16]);
            let without = Unit {
                target: rest.clone(),
                ..book.units[1].clone()
            };
            says(&book, &forged, 1, 4, &without.text(), &name);

            // two equal ones, and one more before the last block
            book.units[1].target = [&line, &line, &other, &rest[..]].concat();
            let (bytes, _) = written(&book);
            let without = with_ciphertext(&bytes, 1, |ciphertext| {
                [&ciphertext[..32], &ciphertext[64..]].concat()
            });
            refuses(&book.key, &without, 8, &name);
        }
    }
}

/// One block before a last one that is not whole does not go, unless its sum ends in zeros.
#[test]
fn partial_last_block() {
    let mut random = Random::new(SEED + 2);
    for suite in SUITES {
        for end in 1..16 {
            let mut book = with_blocks(&mut random, suite, 14, 1);
            book.units[1].target = random.some_bytes(16 + end);
            book.units[1].target[15] |= 1;
            let name = format!("{end} bytes last, {suite:?}, seed {:X}", SEED + 2);
            let (bytes, _) = written(&book);
            let text = book.units[1].text();
            let added = sum(before_last(&text, 1));
            refuses(&book.key, &forged(&bytes, 1, 1, &added), 8, &name);

            book.units[1].target[end..16].fill(0);
            let (bytes, _) = written(&book);
            let text = book.units[1].text();
            let added = sum(before_last(&text, 1));
            let shorter = shortened(&text, 1, &added);
            says(&book, &forged(&bytes, 1, 1, &added), 1, 1, &shorter, &name);
        }
    }
}

/// The books that are accepted among all those in which unit k has another last block, of so many bytes.
fn accepted(key: &[u8], bytes: &[u8], k: u64, len: usize) -> Vec<Vec<u8>> {
    let guesses = (0..1u32 << (8 * len)).map(|guess| {
        with_ciphertext(bytes, k, |ciphertext| {
            let last = (ciphertext.len() - 1) / 16 * 16;
            [&ciphertext[..last], &guess.to_be_bytes()[4 - len..]].concat()
        })
    });
    guesses
        .filter(|guess| raw::check(key, guess).is_ok())
        .collect()
}

/// A partial last block, exchanged for one of another length by guessing: of all guesses exactly one is
/// accepted where the two differ by zeros at the end, and else none. The call total stays.
#[test]
fn zeros_at_the_end() {
    let mut random = Random::new(SEED + 6);
    for suite in [(1, 10), (2, 12)] {
        let mut book = random_book(&mut random, suite, 0, 2);
        book.units = vec![unit(&mut random, 4, 11)];
        let target = &mut book.units[0].target;
        target[10] |= 1;
        let one = target.clone();
        let two = [&one[..], &[0]].concat();

        // a text of 17 bytes gets a zero more, and loses it; one that ends otherwise loses nothing
        let other = [&one[..], &[1]].concat();
        for (before, len, after) in [
            (&one, 2, Some(&two)),
            (&two, 1, Some(&one)),
            (&other, 1, None),
        ] {
            let name = format!("{len} bytes guessed, {suite:?}, seed {:X}", SEED + 6);
            book.units[0].target = before.clone();
            let (bytes, writer) = written(&book);
            let forged = accepted(&book.key, &bytes, 0, len);
            assert_eq!(forged.len(), usize::from(after.is_some()), "{name}");
            for (forged, after) in forged.iter().zip(after) {
                assert_eq!(forged.len() + before.len(), bytes.len() + after.len());
                accepts(&book.key, forged, 1, writer.calls, &name);
                let unit = Fetched {
                    source: book.units[0].source.clone(),
                    target: after.clone(),
                };
                fetch_gives(&book.key, forged, Which::Walked(0), ROOM, &Ok(unit), &name);
            }
        }
    }
}

/// A zero is taken from one unit and added to another: length, unit count and call total are the same. It takes
/// two right guesses, one of 256 and one of 65,536.
#[test]
fn zero_moved() {
    let mut random = Random::new(SEED + 9);
    let mut book = random_book(&mut random, (1, 10), 0, 2);
    book.units = vec![unit(&mut random, 4, 12), unit(&mut random, 4, 11)];
    book.units[0].target[11] = 0;
    let (bytes, writer) = written(&book);
    let taken = accepted(&book.key, &bytes, 0, 1);
    let moved = accepted(&book.key, &taken[0], 1, 2);
    assert_eq!((taken.len(), moved.len()), (1, 1));
    assert_eq!(moved[0].len(), bytes.len());
    assert_ne!(moved[0], bytes);
    accepts(&book.key, &moved[0], 2, writer.calls, "a zero moved");
}

/// Two books of one number, which must never be made: units of one stand in the other, and length, unit count
/// and call total are the same. A book is cut where the other one ends, with the other one's close.
#[test]
fn two_books_of_one_number() {
    let mut random = Random::new(SEED + 7);
    for suite in SUITES {
        let name = format!("{suite:?}, seed {:X}", SEED + 7);
        let newer = three_units(&mut random, suite);
        let mut older = newer.clone();
        older.units = three_units(&mut random, suite).units;
        let (bytes, writer) = written(&newer);
        for k in 0..3 {
            let mut mixed = Parts::of(&newer);
            mixed.units[k] = Parts::of(&older).units[k].clone();
            let mixed = mixed.joined();
            assert_eq!(mixed.len(), bytes.len(), "{name}");
            accepts(&newer.key, &mixed, writer.units, writer.calls, &name);
            for other in 0..3 {
                let from = if other == k { &older } else { &newer };
                let unit = Fetched {
                    source: from.units[other].source.clone(),
                    target: from.units[other].target.clone(),
                };
                let which = Which::Walked(other as u64);
                fetch_gives(&newer.key, &mixed, which, ROOM, &Ok(unit), &name);
            }
        }

        older.units.truncate(2);
        let mut cut = Parts::of(&newer);
        cut.units.truncate(2);
        cut.close = Parts::of(&older).close;
        let (_, writer) = written(&older);
        accepts(&newer.key, &cut.joined(), 2, writer.calls, &name);
    }
}

/// A header with the text's length, as docs/SECURITY.md advises those who seal texts of their own. On opening
/// it has the length of what has come, and what was shortened is refused.
fn with_length(header: &[u8], len: usize) -> Vec<u8> {
    [header, &(len as u64).to_be_bytes()].concat()
}

/// The sealed bytes, made from those of a longer text, open as this one's.
fn opens_as(given: &Given, sealed: &[u8], text: &[u8], name: &str) {
    let len = text.len();
    assert_eq!(sealed.len(), len + 16, "{name}");
    let short = given.with_body(sealed.to_vec());
    assert_eq!(
        short.open_answer(len),
        Ok(text.to_vec()),
        "reference: {name}"
    );
    short.open_gives(len, &Ok(text.to_vec()), name);
}

/// The same for `sb_open`, with a text that is known.
#[test]
fn open_known_text() {
    let mut random = Random::new(SEED + 3);
    for suite in SUITES {
        for (n, a, blocks) in [(1, 0, 2), (12, 25, 3), (15, 16, 9)] {
            let name = format!("{blocks} blocks, {suite:?}, seed {:X}", SEED + 3);
            let given = Given::random(&mut random, suite, n, a, 16 * blocks);
            let text = &given.body;
            for j in 1..blocks {
                let added = sum(before_last(text, j));
                let forged = |sealed: &[u8]| {
                    let (ciphertext, tag) = sealed.split_at(text.len());
                    [&shortened(ciphertext, j, &added), tag].concat()
                };
                let sealed = given.there_and_back(&name);
                opens_as(
                    &given,
                    &forged(&sealed.body),
                    &shortened(text, j, &added),
                    &name,
                );

                let mut along = given.clone();
                along.header = with_length(&given.header, text.len());
                let mut sealed = along.there_and_back(&name);
                sealed.body = forged(&sealed.body);
                let len = sealed.body.len() - 16;
                sealed.header = with_length(&given.header, len);
                sealed.open_gives(len, &Err(8), &name);
            }
        }
    }
}

/// A text with a partial last block and checksum zero has the tag of the empty text.
#[test]
fn open_as_empty() {
    let mut random = Random::new(SEED + 4);
    for suite in SUITES {
        for (n, a, blocks, end) in [(1, 0, 1, 1), (12, 25, 1, 15), (12, 7, 4, 8), (15, 16, 2, 5)] {
            let name = format!("{blocks} blocks and {end}, {suite:?}, seed {:X}", SEED + 4);
            let mut given = Given::random(&mut random, suite, n, a, 16 * blocks);
            // the last whole block ends in what the others leave, and the last bytes are the sum
            let text = &mut given.body;
            let left = sum(text);
            for (byte, left) in text[16 * (blocks - 1)..].iter_mut().zip(left).skip(end) {
                *byte ^= left;
            }
            let last = sum(text);
            assert!(last[end..].iter().all(|byte| *byte == 0));
            text.extend(&last[..end]);
            assert_eq!(sum(text), [0; 16]);

            let sealed = given.there_and_back(&name);
            let tag = &sealed.body[given.body.len()..];
            let (empty, _) = given.with_body(Vec::new()).seal_answer(16).unwrap();
            assert_eq!(tag, empty, "{name}");
            opens_as(&given, tag, &[], &name);

            let mut along = given.clone();
            along.header = with_length(&given.header, given.body.len());
            let mut sealed = along.there_and_back(&name);
            sealed.body.drain(..given.body.len());
            sealed.header = with_length(&given.header, 0);
            sealed.open_gives(0, &Err(8), &name);
        }
    }
}

/// From the sealed empty text one of a zero byte: one guess of 256. With the length sealed along, none.
#[test]
fn open_with_a_zero() {
    let mut random = Random::new(SEED + 8);
    for suite in SUITES {
        for (n, a) in [(1, 0), (12, 25), (15, 16)] {
            let name = format!("header of {a}, {suite:?}, seed {:X}", SEED + 8);
            let given = Given::random(&mut random, suite, n, a, 0);
            let mut along = given.clone();
            along.header = with_length(&given.header, 0);
            let tags = [&given, &along].map(|given| given.there_and_back(&name).body);
            let mut opened = 0;
            for guess in 0..=255 {
                let [short, along] = tags.each_ref().map(|tag| [&[guess], &tag[..]].concat());
                let short = given.with_body(short);
                let answer = short.open_answer(1);
                short.open_gives(1, &answer, &name);
                match answer {
                    Ok(text) => {
                        assert_eq!(text, [0], "{name}");
                        opened += 1;
                    }
                    Err(number) => assert_eq!(number, 8, "{name}"),
                }

                let mut along = given.with_body(along);
                along.header = with_length(&given.header, 1);
                along.open_gives(1, &Err(8), &name);
            }
            assert_eq!(opened, 1, "{name}");
        }
    }
}
