//! The sealing mode: a text with a header is sealed under a nonce to ciphertext and tag.
//!
//! Quoted sentences are the scope's. Refusals are given by their numbers.

use crate::cipher::{decipher, encipher, listed};
use crate::state::Block;

/// What a call of the cipher is for, as far as its tweak says it.
#[derive(Clone, Copy, Debug, PartialEq, Eq)]
pub enum Place {
    /// A header block that is not the last, and its number.
    Header(usize),
    HeaderLastFull,
    HeaderLastPartial,
    /// A text block that is not the last, and its number.
    Text(usize),
    TextLastFull,
    TextLastPartial,
    TagAfterFull,
    TagAfterPartial,
}

use Place::*;

/// A call of the cipher: this block is enciphered under this tweak.
#[derive(Clone, Copy, Debug, PartialEq, Eq)]
pub struct Call {
    pub place: Place,
    pub tweak: Block,
    pub block: Block,
}

/// The tweak of a place. "A nonce has n bytes, 1 to 15, and stands first."
pub fn tweak(nonce: &[u8], place: Place) -> Block {
    let n = nonce.len();
    let bits = 128 - 8 * n;
    // "After the nonce, highest bit first, number big-endian in all remaining bits"
    let after = match place {
        // "not-last text block 0 and number"
        Text(number) => numbered(0, 1, number, bits),
        // "not-last header block 10 and number"
        Header(number) => numbered(0b10, 2, number, bits),
        // "Special tweaks have after the nonce one byte, then zeros"
        TextLastFull => 0xC0 << (bits - 8),
        TextLastPartial => 0xC8 << (bits - 8),
        HeaderLastFull => 0xD0 << (bits - 8),
        HeaderLastPartial => 0xD8 << (bits - 8),
        TagAfterFull => 0xE0 << (bits - 8),
        TagAfterPartial => 0xE8 << (bits - 8),
    };
    let mut tweak = after.to_be_bytes();
    tweak[..n].copy_from_slice(nonce);
    tweak
}

/// So many bits as a number: the prefix's, then those of the number.
fn numbered(prefix: u128, prefix_bits: usize, number: usize, bits: usize) -> u128 {
    let number = number as u128;
    assert!(number < 1 << (bits - prefix_bits), "the number has room");
    (prefix << (bits - prefix_bits)) + number
}

/// "Limits: header min(2^(130−8n), 2^24) bytes", for a nonce of n bytes.
pub fn header_limit(n: usize) -> usize {
    2usize.pow((130 - 8 * n as u32).min(24))
}

/// "text min(2^(131−8n), 2^24)", for a nonce of n bytes.
pub fn text_limit(n: usize) -> usize {
    2usize.pow((131 - 8 * n as u32).min(24))
}

/// "⌈a/16⌉ + ⌈m/16⌉ + 1 in all", for a header of a bytes and a text of m bytes.
pub fn call_count(a: usize, m: usize) -> usize {
    a.div_ceil(16) + m.div_ceil(16) + 1
}

/// "The call list is these (tweak, block) pairs: header, text, tag", within the limits.
pub fn calls(nonce: &[u8], header: &[u8], text: &[u8]) -> Vec<Call> {
    let mut calls = Vec::new();
    let mut call = |place, block| {
        calls.push(Call {
            place,
            tweak: tweak(nonce, place),
            block,
        })
    };
    let count = header.len().div_ceil(16);
    for (i, bytes) in header.chunks(16).enumerate() {
        call(header_place(i, i + 1 == count, bytes), header_block(bytes));
    }
    let count = text.len().div_ceil(16);
    let mut checksum = [0; 16];
    for (i, bytes) in text.chunks(16).enumerate() {
        let last = i + 1 == count;
        let block = if last {
            length_block(bytes.len())
        } else {
            zero_filled(bytes)
        };
        call(text_place(i, last, bytes), block);
        checksum = sum(&checksum, &zero_filled(bytes));
    }
    call(tag_place(text.len()), checksum);
    calls
}

/// Where a header block stands.
fn header_place(number: usize, last: bool, bytes: &[u8]) -> Place {
    match (last, bytes.len()) {
        (false, _) => Header(number),
        (true, 16) => HeaderLastFull,
        (true, _) => HeaderLastPartial,
    }
}

/// Where a text block stands. "a last block of 16 is full"
fn text_place(number: usize, last: bool, bytes: &[u8]) -> Place {
    match (last, bytes.len()) {
        (false, _) => Text(number),
        (true, 16) => TextLastFull,
        (true, _) => TextLastPartial,
    }
}

/// The tag's place after a text of m bytes. "Empty text: no text call, checksum zero, tweak E8"
fn tag_place(m: usize) -> Place {
    if m > 0 && m.is_multiple_of(16) {
        TagAfterFull
    } else {
        TagAfterPartial
    }
}

/// The block of 1 to 16 header bytes. "Partial header block: 80, then zeros."
fn header_block(bytes: &[u8]) -> Block {
    let mut block = zero_filled(bytes);
    if bytes.len() < 16 {
        block[bytes.len()] = 0x80;
    }
    block
}

/// "its bit length in byte 15 of an otherwise zero block"
fn length_block(len: usize) -> Block {
    let mut block = [0; 16];
    block[15] = 8 * len as u8;
    block
}

/// Up to 16 bytes, then zeros.
fn zero_filled(bytes: &[u8]) -> Block {
    let mut block = [0; 16];
    block[..bytes.len()].copy_from_slice(bytes);
    block
}

/// The sum of two blocks, by xor.
fn sum(a: &Block, b: &Block) -> Block {
    std::array::from_fn(|i| a[i] ^ b[i])
}

/// The sealed bytes, from the call list and each of its blocks enciphered.
/// "Sealed bytes are ciphertext, then tag."
pub fn assembled(calls: &[Call], enciphered: &[Block], text: &[u8]) -> Vec<u8> {
    let mut ciphertext = Vec::new();
    let mut tag = [0; 16];
    for (call, enciphered) in calls.iter().zip(enciphered) {
        match call.place {
            // "Tag: enciphered checksum xor all enciphered header blocks."
            Header(_) | HeaderLastFull | HeaderLastPartial | TagAfterFull | TagAfterPartial => {
                tag = sum(&tag, enciphered)
            }
            Text(_) => ciphertext.extend(enciphered),
            // "enciphered; the leading bytes are added to it by xor"
            TextLastFull | TextLastPartial => {
                let bytes = &text[ciphertext.len()..];
                ciphertext.extend(bytes.iter().zip(enciphered).map(|(byte, e)| byte ^ e));
            }
        }
    }
    ciphertext.extend(tag);
    ciphertext
}

/// Refusals 1 to 4, which sealing and opening share; else the key.
fn admitted(cipher: u8, steps: u8, key: &[u8], nonce: &[u8], header: &[u8]) -> Result<Block, u32> {
    if !listed(cipher, steps) {
        return Err(1);
    }
    let Ok(key) = Block::try_from(key) else {
        return Err(2);
    };
    if !(1..=15).contains(&nonce.len()) {
        return Err(3);
    }
    if header.len() > header_limit(nonce.len()) {
        return Err(4);
    }
    Ok(key)
}

/// The sealed bytes and the number of cipher calls; or the first refusal of 1, 2, 3, 4, 6 and 7.
/// `out_len` is the length of the output that the sealed bytes are for.
pub fn seal(
    cipher: u8,
    steps: u8,
    key: &[u8],
    nonce: &[u8],
    header: &[u8],
    text: &[u8],
    out_len: usize,
) -> Result<(Vec<u8>, usize), u32> {
    let key = admitted(cipher, steps, key, nonce, header)?;
    if text.len() > text_limit(nonce.len()) {
        return Err(6);
    }
    if out_len < text.len() + 16 {
        return Err(7);
    }
    let calls = calls(nonce, header, text);
    let enciphered: Vec<Block> = calls
        .iter()
        .map(|call| encipher(cipher, steps, &key, &call.tweak, &call.block).unwrap())
        .collect();
    Ok((assembled(&calls, &enciphered, text), calls.len()))
}

/// The text that a ciphertext has under a listed suite, whatever its tag is.
pub fn unsealed(cipher: u8, steps: u8, key: &Block, nonce: &[u8], ciphertext: &[u8]) -> Vec<u8> {
    let mut text = Vec::new();
    let mut rest = ciphertext;
    while rest.len() > 16 {
        let (bytes, after) = rest.split_at(16);
        let tweak = tweak(nonce, Text(text.len() / 16));
        let block = bytes.try_into().unwrap();
        text.extend(decipher(cipher, steps, key, &tweak, block).unwrap());
        rest = after;
    }
    if !rest.is_empty() {
        let place = if rest.len() == 16 {
            TextLastFull
        } else {
            TextLastPartial
        };
        let length = length_block(rest.len());
        let mask = encipher(cipher, steps, key, &tweak(nonce, place), &length).unwrap();
        text.extend(rest.iter().zip(mask).map(|(byte, m)| byte ^ m));
    }
    text
}

/// The text; or the first refusal of 1 to 8. `out_len` is the length of the output that it is for.
pub fn open(
    cipher: u8,
    steps: u8,
    key: &[u8],
    nonce: &[u8],
    header: &[u8],
    sealed: &[u8],
    out_len: usize,
) -> Result<Vec<u8>, u32> {
    let key = admitted(cipher, steps, key, nonce, header)?;
    if sealed.len() < 16 {
        return Err(5);
    }
    let (ciphertext, tag) = sealed.split_at(sealed.len() - 16);
    if ciphertext.len() > text_limit(nonce.len()) {
        return Err(6);
    }
    if out_len < ciphertext.len() {
        return Err(7);
    }
    let enciphered =
        |place, block: Block| encipher(cipher, steps, &key, &tweak(nonce, place), &block).unwrap();

    let text = unsealed(cipher, steps, &key, nonce, ciphertext);

    // "Checksum: xor of text blocks, the last zero-filled."
    let mut checksum = [0; 16];
    for (i, byte) in text.iter().enumerate() {
        checksum[i % 16] ^= byte;
    }
    let mut expected = enciphered(tag_place(text.len()), checksum);
    let mut rest = header;
    let mut number = 0;
    while rest.len() > 16 {
        let (bytes, after) = rest.split_at(16);
        expected = sum(&expected, &enciphered(Header(number), header_block(bytes)));
        rest = after;
        number += 1;
    }
    // "Empty header: no call, zero."
    if !rest.is_empty() {
        let place = if rest.len() == 16 {
            HeaderLastFull
        } else {
            HeaderLastPartial
        };
        expected = sum(&expected, &enciphered(place, header_block(rest)));
    }
    if expected != tag {
        return Err(8);
    }
    Ok(text)
}

#[cfg(test)]
mod tests {
    use super::*;
    use crate::cipher::SUITES;
    use crate::random::Random;
    use std::collections::HashSet;

    fn tweaks(nonce: &[u8], header: &[u8], text: &[u8]) -> Vec<Block> {
        let calls = calls(nonce, header, text);
        calls.iter().map(|call| call.tweak).collect()
    }

    /// Known value 6.
    #[test]
    fn known_tweaks() {
        let nonce: [u8; 15] = Random::new(6).bytes();
        for (place, byte) in [
            (Text(126), 0x7E),
            (Header(62), 0xBE),
            (TextLastFull, 0xC0),
            (TextLastPartial, 0xC8),
            (HeaderLastFull, 0xD0),
            (HeaderLastPartial, 0xD8),
            (TagAfterFull, 0xE0),
            (TagAfterPartial, 0xE8),
        ] {
            let tweak = tweak(&nonce, place);
            assert_eq!((&tweak[..15], tweak[15]), (&nonce[..], byte), "{place:?}");
        }
    }

    #[test]
    fn numbers_are_big_endian_to_the_last_byte() {
        let tweak = |place| tweak(&[0xA5; 12], place)[12..].to_vec();
        assert_eq!(tweak(Text(0)), [0, 0, 0, 0]);
        assert_eq!(tweak(Text(0x0123_4567)), [0x01, 0x23, 0x45, 0x67]);
        assert_eq!(tweak(Header(0)), [0x80, 0, 0, 0]);
        assert_eq!(tweak(Header(0x0123_4567)), [0x81, 0x23, 0x45, 0x67]);
        assert_eq!(tweak(TextLastFull), [0xC0, 0, 0, 0]);
        assert_eq!(tweak(TagAfterPartial), [0xE8, 0, 0, 0]);
    }

    /// "no block index passes 1,048,575": the last numbers within the limits.
    #[test]
    fn last_numbers_within_the_limits() {
        for (n, place, tail) in [
            (13, Text(1_048_575), &[0x0F, 0xFF, 0xFF][..]),
            (13, Header(1_048_575), &[0x8F, 0xFF, 0xFF]),
            (14, Text(32_767), &[0x7F, 0xFF]),
            (14, Header(16_383), &[0xBF, 0xFF]),
            (15, Text(127), &[0x7F]),
            (15, Header(63), &[0xBF]),
        ] {
            assert_eq!(tweak(&vec![0xA5; n], place)[n..], *tail, "{place:?}");
            let last = match place {
                Text(number) => number == text_limit(n) / 16 - 1,
                Header(number) => number == header_limit(n) / 16 - 1,
                _ => false,
            };
            assert!(last, "{place:?}");
        }
        for n in 1..=12 {
            assert_eq!((header_limit(n), text_limit(n)), (1 << 24, 1 << 24));
            let mut tail = vec![0; 13 - n];
            tail.extend([0x0F, 0xFF, 0xFF]);
            assert_eq!(tweak(&vec![0xA5; n], Text(1_048_575))[n..], tail);
            tail[0] = 0x80;
            assert_eq!(tweak(&vec![0xA5; n], Header(1_048_575))[n..], tail);
        }
    }

    /// Known value 7, and the count of a list beside its length.
    #[test]
    fn known_call_counts() {
        for (a, m, count) in [(0, 0, 1), (16, 16, 3), (17, 17, 5), (25, 13, 4)] {
            assert_eq!(calls(&[1, 2, 3], &vec![4; a], &vec![5; m]).len(), count);
            assert_eq!(call_count(a, m), count);
        }
        for a in 0..70 {
            for m in 0..70 {
                let calls = calls(&[1; 12], &vec![2; a], &vec![3; m]);
                assert_eq!(calls.len(), call_count(a, m), "({a}, {m})");
            }
        }
    }

    #[test]
    fn limits_of_each_nonce_length() {
        for n in 1..=13 {
            assert_eq!((header_limit(n), text_limit(n)), (1 << 24, 1 << 24));
        }
        assert_eq!((header_limit(14), text_limit(14)), (262_144, 524_288));
        assert_eq!((header_limit(15), text_limit(15)), (1_024, 2_048));
    }

    /// Known value 9.
    #[test]
    fn known_limits() {
        let nonce = [9; 15];
        let sealed = |a, m| seal(1, 6, &[7; 16], &nonce, &vec![1; a], &vec![2; m], 3_000);
        assert_eq!(sealed(0, 2_048).map(|(sealed, _)| sealed.len()), Ok(2_064));
        assert_eq!(sealed(0, 2_049), Err(6));
        assert_eq!(sealed(1_024, 0).map(|(sealed, _)| sealed.len()), Ok(16));
        assert_eq!(sealed(1_025, 0), Err(4));
        let opened = |a, len| open(1, 6, &[7; 16], &nonce, &vec![1; a], &vec![2; len], 3_000);
        assert_eq!(opened(0, 2_064), Err(8));
        assert_eq!(opened(0, 2_065), Err(6));
        assert_eq!(opened(1_024, 16), Err(8));
        assert_eq!(opened(1_025, 16), Err(4));
    }

    #[test]
    fn tweaks_of_a_list_differ() {
        for n in [14, 15] {
            let nonce = vec![0x5A; n];
            for less in [0, 1, 16] {
                let header = vec![1; header_limit(n) - less];
                let text = vec![2; text_limit(n) - less];
                let tweaks = tweaks(&nonce, &header, &text);
                assert_eq!(tweaks.len(), call_count(header.len(), text.len()));
                let different: HashSet<&Block> = tweaks.iter().collect();
                assert_eq!(different.len(), tweaks.len(), "n = {n}, less {less}");
            }
        }
    }

    #[test]
    fn nonces_of_one_length_share_no_tweak() {
        for n in 1..=15 {
            let (header, text) = (vec![1; 1_024], vec![2; 2_048]);
            let one = vec![0; n];
            let of_one: HashSet<Block> = tweaks(&one, &header, &text).into_iter().collect();
            assert_eq!(of_one.len(), call_count(1_024, 2_048));
            for i in 0..8 * n {
                let mut other = one.clone();
                other[i / 8] ^= 1 << (i % 8);
                for tweak in tweaks(&other, &header[..1_023], &text[..2_047]) {
                    assert!(!of_one.contains(&tweak), "n = {n}, bit {i}");
                }
            }
        }
    }

    #[test]
    fn opening_undoes_sealing() {
        let mut random = Random::new(8);
        for (cipher, steps) in SUITES {
            for _ in 0..40 {
                let key: Block = random.bytes();
                let mut nonce = vec![0; 1 + random.below(15)];
                let mut header = vec![0; random.below(70)];
                let mut text = vec![0; random.below(70)];
                random.fill(&mut nonce);
                random.fill(&mut header);
                random.fill(&mut text);
                let (mut sealed, count) =
                    seal(cipher, steps, &key, &nonce, &header, &text, text.len() + 16).unwrap();
                assert_eq!(sealed.len(), text.len() + 16);
                assert_eq!(count, call_count(header.len(), text.len()));
                let opened =
                    |sealed: &[u8]| open(cipher, steps, &key, &nonce, &header, sealed, text.len());
                assert_eq!(opened(&sealed), Ok(text.clone()));
                let at = random.below(sealed.len());
                sealed[at] ^= 1 << random.below(8);
                assert_eq!(opened(&sealed), Err(8));
            }
        }
    }

    #[test]
    fn the_first_refusal_is_given() {
        let (key, nonce, header) = ([0; 16], [0; 15], [0; 1_024]);
        let none: &[u8] = &[];
        let over = [0; 2_065];
        assert_eq!(seal(1, 7, none, none, &over, &over, 0), Err(1));
        assert_eq!(seal(1, 6, none, none, &over, &over, 0), Err(2));
        assert_eq!(seal(1, 6, &key, none, &over, &over, 0), Err(3));
        assert_eq!(seal(1, 6, &key, &over[..16], &over, &over, 0), Err(3));
        assert_eq!(seal(1, 6, &key, &nonce, &over, &over, 0), Err(4));
        assert_eq!(seal(1, 6, &key, &nonce, &header, &over, 0), Err(6));
        assert_eq!(seal(1, 6, &key, &nonce, &header, &over[..9], 24), Err(7));
        assert!(seal(1, 6, &key, &nonce, &header, &over[..9], 25).is_ok());

        assert_eq!(open(1, 7, none, none, &over, none, 0), Err(1));
        assert_eq!(open(1, 6, none, none, &over, none, 0), Err(2));
        assert_eq!(open(1, 6, &key, none, &over, none, 0), Err(3));
        assert_eq!(open(1, 6, &key, &nonce, &over, none, 0), Err(4));
        assert_eq!(open(1, 6, &key, &nonce, &header, &over[..15], 0), Err(5));
        assert_eq!(open(1, 6, &key, &nonce, &header, &over, 0), Err(6));
        assert_eq!(open(1, 6, &key, &nonce, &header, &over[..25], 8), Err(7));
        assert_eq!(open(1, 6, &key, &nonce, &header, &over[..25], 9), Err(8));
    }
}
