//! The reference against every line of cipher.txt, seal.txt and open.txt; the ciphers in both directions.

use reference::cipher::{decipher, encipher, SUITES};
use reference::sealing::{call_count, open, seal};
use reference::vectors::{cipher_vectors, open_vectors, seal_vectors};

#[test]
fn cipher_vectors_hold() {
    for v in cipher_vectors() {
        let there = encipher(v.cipher, v.steps, &v.key, &v.tweak, &v.block);
        assert_eq!(there, Some(v.enciphered), "line {}", v.line);
        let back = decipher(v.cipher, v.steps, &v.key, &v.tweak, &v.enciphered);
        assert_eq!(back, Some(v.block), "line {}", v.line);
    }
}

#[test]
fn seal_vectors_hold() {
    for v in seal_vectors() {
        let (cipher, steps, len) = (v.cipher, v.steps, v.text.len());
        let sealed = |out_len| seal(cipher, steps, &v.key, &v.nonce, &v.header, &v.text, out_len);
        let expected = Ok((v.sealed.clone(), v.calls));
        assert_eq!(sealed(len + 16), expected, "line {}", v.line);
        assert_eq!(sealed(len + 15), Err(7), "line {}", v.line);
        assert_eq!(call_count(v.header.len(), len), v.calls, "line {}", v.line);
        let opened = open(cipher, steps, &v.key, &v.nonce, &v.header, &v.sealed, len);
        assert_eq!(opened.as_ref(), Ok(&v.text), "line {}", v.line);
    }
}

#[test]
fn open_vectors_hold() {
    for v in open_vectors() {
        let (cipher, steps, len) = (v.cipher, v.steps, v.sealed.len());
        let opened = open(cipher, steps, &v.key, &v.nonce, &v.header, &v.sealed, len);
        assert_eq!(opened, v.answer, "line {}", v.line);
    }
}

#[test]
fn every_suite_has_vectors() {
    let (ciphers, seals, opens) = (cipher_vectors(), seal_vectors(), open_vectors());
    assert_eq!((ciphers.len(), seals.len(), opens.len()), (80, 197, 144));
    for suite in SUITES {
        let lines = ciphers.iter().filter(|v| (v.cipher, v.steps) == suite);
        assert!(lines.count() >= 10, "suite {suite:?}");
        let lines = seals.iter().filter(|v| (v.cipher, v.steps) == suite);
        assert!(lines.count() >= 20, "suite {suite:?}");
        let lines = || opens.iter().filter(|v| (v.cipher, v.steps) == suite);
        assert!(
            lines().filter(|v| v.answer.is_ok()).count() >= 4,
            "suite {suite:?}"
        );
        assert!(
            lines().filter(|v| v.answer == Err(8)).count() >= 4,
            "suite {suite:?}"
        );
        assert!(lines().any(|v| v.answer == Err(5)), "suite {suite:?}");
    }
}
