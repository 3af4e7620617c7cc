//! The receipt of a book: it is the book's three numbers, goes through text, and refuses what was made shorter
//! or longer without the key, which checking alone accepts.

mod common;

use common::{add, book, lengths, started, unit, written};
use reference::random::Random;
use sealed_book::Refusal::{FieldMalformed, ReceiptDiffers, TagDiffers};
use sealed_book::{raw, Book, Receipt, Suite, Writer};

const SEED: u64 = 0x5245_4350;

/// The receipt of a book with units of these lengths, by the scope's words: "A book takes 16 + the sum of
/// (33 + s + t) + 24 bytes", with two more for each number in a wide one; the call list of a unit has two header
/// blocks, the blocks of its text and the tag, that of the close two header blocks and the tag.
fn expected(lengths: &[(usize, usize)]) -> Receipt {
    let bytes = lengths.iter().map(|(s, t)| 35 + s + t).sum::<usize>();
    let calls = lengths
        .iter()
        .map(|(s, t)| 2 + (2 + s + t).div_ceil(16) + 1);
    Receipt {
        bytes: 16 + bytes as u64 + 26,
        units: lengths.len() as u64,
        calls: calls.sum::<usize>() as u64 + 3,
    }
}

/// A writer gives it, and a book that was checked has the same.
#[test]
fn of_a_book() {
    let mut random = Random::new(SEED);
    for suite in Suite::ALL {
        for count in [0, 1, 2, 7, 60] {
            let mut lengths = lengths(&mut random, count, 70);
            lengths.extend([(4_096, 4_096), (1, 0)]);
            let given = book(&mut random, suite, &lengths);
            let mut writer = started(&given);
            for unit in &given.units {
                add(&mut writer, unit).unwrap();
            }
            let (bytes, receipt) = writer.close().unwrap();
            let name = format!("{count} units, {suite}, seed {SEED:X}");
            assert_eq!(receipt, expected(&lengths), "{name}");
            let book = Book::check(&given.key, &bytes).unwrap();
            assert_eq!(book.receipt(), receipt, "{name}");
            let book = Book::check_receipt(&given.key, &bytes, &receipt).unwrap();
            assert_eq!((book.receipt(), book.bytes()), (receipt, &bytes[..]));
        }
    }
}

/// Each number counts; and what checking refuses is refused so, whatever the receipt.
#[test]
fn each_number_counts() {
    let key = [5; 16];
    let mut writer = Writer::start(Suite::SCREAM_6, &key, 9).unwrap();
    writer.add("en", "de", "valve", "Ventil").unwrap();
    let (bytes, receipt) = writer.close().unwrap();
    let Receipt {
        bytes: len,
        units,
        calls,
    } = receipt;
    assert_eq!((len, units, calls), (88, 1, 7));
    let with = |bytes, units, calls| Receipt {
        bytes,
        units,
        calls,
    };
    let mut others = vec![with(0, 0, 0), with(units, calls, len)];
    for change in [-1, 1, 1 << 32] {
        others.push(with(len.wrapping_add_signed(change), units, calls));
        others.push(with(len, units.wrapping_add_signed(change), calls));
        others.push(with(len, units, calls.wrapping_add_signed(change)));
    }
    for other in &others {
        let answer = Book::check_receipt(&key, &bytes, other).map(|_| ());
        assert_eq!(answer, Err(ReceiptDiffers), "{other}");
    }

    others.push(receipt);
    let mut changed = bytes.clone();
    changed[30] ^= 1;
    for (bytes, refusal) in [(&bytes[..87], FieldMalformed), (&changed, TagDiffers)] {
        for receipt in &others {
            let answer = Book::check_receipt(&key, bytes, receipt).map(|_| ());
            assert_eq!(answer, Err(refusal), "{receipt}");
        }
    }
    let answer = Book::check_receipt(&[6; 16], &bytes, &receipt).map(|_| ());
    assert_eq!(answer, Err(TagDiffers));
}

/// What is written as text is read again, with any white space around its words.
#[test]
fn there_and_back() {
    let most = u64::MAX;
    for [bytes, units, calls] in [[88, 1, 7], [42, 0, 3], [0, 0, 0], [most, most, most]] {
        let receipt = Receipt {
            bytes,
            units,
            calls,
        };
        let text = receipt.to_string();
        assert_eq!(text, format!("bytes={bytes} units={units} calls={calls}"));
        assert_eq!(text.parse(), Ok(receipt));
        for space in ["\n", "\r\n", "  ", "\t", "\u{A0}"] {
            let broken = format!("{space}{}{space}", text.replace(' ', space));
            assert_eq!(broken.parse(), Ok(receipt), "{broken:?}");
        }
    }
}

/// Any other text is no receipt.
#[test]
fn other_texts() {
    for text in [
        "",
        " ",
        "84 1 7",
        "bytes=84",
        "bytes=84 units=1",
        "bytes=84 units=1 calls=",
        "bytes=84 units=1 calls",
        "bytes=84 units=1 calls=7.",
        "bytes=84 units=1 calls=7 calls=7",
        "units=1 bytes=84 calls=7",
        "bytes=84 calls=7 units=1",
        "bytes=84, units=1, calls=7",
        "bytes=84units=1calls=7",
        "bytes = 84 units = 1 calls = 7",
        "Bytes=84 units=1 calls=7",
        "ok bytes=84 units=1 calls=7",
        "bytes=+84 units=1 calls=7",
        "bytes=-84 units=1 calls=7",
        "bytes=0x54 units=1 calls=7",
        "bytes=8_4 units=1 calls=7",
        "bytes=8,4 units=1 calls=7",
        "bytes==84 units=1 calls=7",
        "bytes=\u{0668} units=1 calls=7",
        "bytes=84 units=1 calls=18446744073709551616",
    ] {
        let error = text.parse::<Receipt>().expect_err(text);
        assert!(error.to_string().contains("bytes=88 units=1 calls=7"));
    }
}

/// The book with these bytes taken out of unit 0's ciphertext, these added to its last block, and its length
/// set right. No key is needed.
fn forged(bytes: &[u8], taken: std::ops::Range<usize>, added: &[u8]) -> Vec<u8> {
    let part = raw::unit(bytes, 0).unwrap().ciphertext;
    let mut ciphertext = bytes[part.clone()].to_vec();
    ciphertext.drain(taken);
    let last = (ciphertext.len() - 1) / 16 * 16;
    for (byte, added) in ciphertext[last..].iter_mut().zip(added) {
        *byte ^= added;
    }
    let len = (ciphertext.len() as u16).to_be_bytes();
    let [before, behind] = [&bytes[..part.start - 2], &bytes[part.end..]];
    [before, &len, &ciphertext, behind].concat()
}

/// Who knows the text of a unit takes a block away, and checking accepts it: with one call less, and another
/// target. The receipt refuses it.
#[test]
fn known_text() {
    let mut random = Random::new(SEED + 1);
    for suite in Suite::ALL {
        let mut given = book(&mut random, suite, &[(20, 58), (7, 8)]);
        let receipt = expected(&[(20, 58), (7, 8)]);
        let bytes = written(&given);
        let text = given.units[0].text();
        assert_eq!(text.len(), 80);
        let forged = forged(&bytes, 48..64, &text[48..64]);

        let book = Book::check(&given.key, &forged).unwrap();
        let Receipt {
            bytes: len,
            units,
            calls,
        } = book.receipt();
        assert_eq!(
            (len + 16, units, calls + 1),
            (receipt.bytes, receipt.units, receipt.calls)
        );
        let target = &mut given.units[0].target;
        // the text's last two blocks become one, their sum
        let two = target.split_off(58 - 32);
        target.extend((0..16).map(|i| two[i] ^ two[16 + i]));
        for (k, unit) in given.units.iter().enumerate() {
            common::assert_unit(&book.fetch(k as u64).unwrap(), k, unit, "forged");
        }

        let answer = Book::check_receipt(&given.key, &forged, &receipt);
        assert_eq!(answer.err(), Some(ReceiptDiffers), "{suite}");
        assert!(Book::check_receipt(&given.key, &bytes, &receipt).is_ok());
    }
}

/// Two equal blocks before the last one are taken away by who does not know them.
#[test]
fn two_equal_blocks() {
    let mut random = Random::new(SEED + 2);
    for suite in Suite::ALL {
        let mut given = book(&mut random, suite, &[(14, 0)]);
        let lines = b"0123456789ABCDE\n".repeat(2);
        let end = unit(&mut random, 1, 5).target;
        given.units[0].target = [&lines[..], &end].concat();
        let receipt = expected(&[(14, 37)]);
        let bytes = written(&given);
        // the text: a block of s and source, the two, and five bytes
        let forged = forged(&bytes, 16..48, &[]);

        let book = Book::check(&given.key, &forged).unwrap();
        assert_eq!(book.fetch(0).unwrap().target, end);
        assert_eq!(
            (book.receipt().bytes + 32, book.calls() + 2),
            (receipt.bytes, receipt.calls)
        );
        let answer = Book::check_receipt(&given.key, &forged, &receipt);
        assert_eq!(answer.err(), Some(ReceiptDiffers), "{suite}");
    }
}

/// A zero byte at the end of a text of 17 bytes: of all guesses of the new last block, two bytes, one is accepted.
/// The book has one byte more and as many calls, and the receipt refuses it.
#[test]
fn zero_at_the_end() {
    let mut random = Random::new(SEED + 3);
    let given = book(&mut random, Suite::SCREAM_10, &[(4, 11)]);
    let receipt = expected(&[(4, 11)]);
    let bytes = written(&given);
    let part = raw::unit(&bytes, 0).unwrap().ciphertext;
    assert_eq!(part.len(), 17);
    let mut forged = bytes.clone();
    forged.insert(part.end, 0);
    forged[part.start - 1] += 1;
    let mut accepted = 0;
    for guess in 0..=u16::MAX {
        forged[part.end - 1..=part.end].copy_from_slice(&guess.to_be_bytes());
        let Ok(book) = Book::check(&given.key, &forged) else {
            continue;
        };
        accepted += 1;
        let target = [&given.units[0].target[..], &[0]].concat();
        assert_eq!(book.fetch(0).unwrap().target, target);
        assert_eq!(
            (book.receipt().bytes - 1, book.calls()),
            (receipt.bytes, receipt.calls)
        );
        let answer = Book::check_receipt(&given.key, &forged, &receipt);
        assert_eq!(answer.err(), Some(ReceiptDiffers));
    }
    assert_eq!(accepted, 1);
}

/// It does not say which book it is: another one under the key with the same lengths has the same receipt, and
/// another number.
#[test]
fn not_which_book() {
    let mut random = Random::new(SEED + 4);
    for suite in Suite::ALL {
        let given = book(&mut random, suite, &[(20, 21), (7, 8)]);
        let mut other = given.clone();
        other.number ^= 1;
        other.units = book(&mut random, suite, &[(20, 21), (7, 8)]).units;
        let receipt = expected(&[(20, 21), (7, 8)]);
        let checked = Book::check_receipt(&given.key, written(&other), &receipt).unwrap();
        assert_eq!(checked.number(), given.number ^ 1);
    }
}
