//! The library and the reference against every line of cipher.txt, in both directions, and the library
//! against every line of seal.txt, open.txt, fetch.txt and page.txt. Those of book.txt and books.txt are in check.rs.

mod common;

use common::fetching::{fetch_gives, part_gives, Which::Walked};
use common::paging::page_gives;
use common::sealing::Given;
use common::Direction::{Decipher, Encipher};
use reference::vectors::{cipher_vectors, fetch_vectors, open_vectors, page_vectors, seal_vectors};

#[test]
fn cipher_vectors_hold() {
    let vectors = cipher_vectors();
    assert_eq!(vectors.len(), 80);
    for v in vectors {
        let suite = (v.cipher, v.steps);
        for (direction, from, to) in [
            (Encipher, v.block, v.enciphered),
            (Decipher, v.enciphered, v.block),
        ] {
            let name = format!("line {}, {direction:?}", v.line);
            let expected = direction.reference(suite, &v.key, &v.tweak, &from);
            assert_eq!(expected, Some(to), "reference, {name}");

            let mut block = from;
            let answer = direction.library(suite, &v.key, &v.tweak, &mut block);
            assert_eq!((answer, block), (Ok(()), to), "library, {name}");

            let mut blocks = from;
            let answer = direction.library_blocks(suite, &v.key, &v.tweak, &mut blocks);
            assert_eq!((answer, blocks), (Ok(()), to), "library's blocks, {name}");
        }
    }
}

#[test]
fn seal_vectors_hold() {
    let vectors = seal_vectors();
    assert_eq!(vectors.len(), 197);
    for v in vectors {
        let name = format!("line {}", v.line);
        let (text_len, sealed_len) = (v.text.len(), v.sealed.len());
        let given = Given {
            suite: (v.cipher, v.steps),
            key: v.key.to_vec(),
            nonce: v.nonce,
            header: v.header,
            body: v.text.clone(),
        };
        let answer = Ok((v.sealed.clone(), v.calls));
        given.seal_gives(sealed_len, &answer, &name);
        given.seal_gives(sealed_len + 9, &answer, &name);
        given.seal_gives(sealed_len - 1, &Err(7), &name);
        let given = given.with_body(v.sealed);
        given.open_gives(text_len, &Ok(v.text), &name);
    }
}

#[test]
fn open_vectors_hold() {
    let vectors = open_vectors();
    assert_eq!(vectors.len(), 144);
    for v in vectors {
        let name = format!("line {}", v.line);
        let len = v.sealed.len().saturating_sub(16);
        let given = Given {
            suite: (v.cipher, v.steps),
            key: v.key.to_vec(),
            nonce: v.nonce,
            header: v.header,
            body: v.sealed,
        };
        given.open_gives(len, &v.answer, &name);
        given.open_gives(len + 9, &v.answer, &name);
        if len > 0 {
            given.open_gives(len - 1, &Err(7), &name);
        }
    }
}

#[test]
fn fetch_vectors_hold() {
    let vectors = fetch_vectors();
    assert_eq!(vectors.len(), 80);
    for v in vectors {
        let (name, which) = (format!("line {}", v.line), Walked(v.k));
        fetch_gives(&v.key, &v.book, which, v.room, &v.answer, &name);
        part_gives(&v.book, v.k, v.ciphertext, &name);
        if let Ok(unit) = &v.answer {
            let len = unit.written().len();
            fetch_gives(&v.key, &v.book, which, len, &v.answer, &name);
            fetch_gives(&v.key, &v.book, which, len - 1, &Err(7), &name);
        }
    }
}

#[test]
fn page_vectors_hold() {
    let vectors = page_vectors();
    assert_eq!(vectors.len(), 60);
    for v in vectors {
        let name = format!("line {}", v.line);
        page_gives(&v.key, &v.book, &v.typed, v.room, &v.answer, &name);
        if let Ok(page) = &v.answer {
            let len = page.len();
            page_gives(&v.key, &v.book, &v.typed, len + 9, &v.answer, &name);
            if len > 0 {
                page_gives(&v.key, &v.book, &v.typed, len - 1, &Err(7), &name);
            }
        }
    }
}
