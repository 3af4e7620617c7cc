//! Sealing and opening in the library. `seal_gives` and `open_gives` compare every byte and number that it leaves.

use std::hint::black_box;

use reference::random::Random;
use reference::sealing;
use sealed_book::foreign::{sb_open, sb_seal};
use sealed_book::raw::{self, Sealed};

use super::guarded::Output;
use super::refusal;

/// The numbers that a call finds, and leaves where it refuses.
const LEN: u64 = 0x0123_4567_89AB_CDEF;
const CALLS: u64 = 0xFEDC_BA98_7654_3210;

/// The sealed bytes and the calls, or a refusal's number.
pub type SealAnswer = Result<(Vec<u8>, usize), u32>;

/// The text, or a refusal's number.
pub type OpenAnswer = Result<Vec<u8>, u32>;

/// What a call is given to read; the body is a text to seal, or sealed bytes to open.
#[derive(Clone, PartialEq)]
pub struct Given {
    pub suite: (u8, u8),
    pub key: Vec<u8>,
    pub nonce: Vec<u8>,
    pub header: Vec<u8>,
    pub body: Vec<u8>,
}

impl Given {
    /// Random bytes of these lengths, and a key of 16.
    pub fn random(
        random: &mut Random,
        suite: (u8, u8),
        nonce_len: usize,
        header_len: usize,
        body_len: usize,
    ) -> Given {
        Given {
            suite,
            key: random.some_bytes(16),
            nonce: random.some_bytes(nonce_len),
            header: random.some_bytes(header_len),
            body: random.some_bytes(body_len),
        }
    }

    /// The same with another body.
    pub fn with_body(&self, body: Vec<u8>) -> Given {
        Given {
            body,
            ..self.clone()
        }
    }

    /// What the reference answers to sealing.
    pub fn seal_answer(&self, out_len: usize) -> SealAnswer {
        let ((cipher, steps), key, nonce) = (self.suite, &self.key, &self.nonce);
        sealing::seal(cipher, steps, key, nonce, &self.header, &self.body, out_len)
    }

    /// The bytes that the library seals, without a comparison.
    pub fn sealed(&self) -> Vec<u8> {
        let ((cipher, steps), key, nonce) = (self.suite, &self.key, &self.nonce);
        let mut out = vec![0; self.body.len() + 16];
        raw::seal(
            cipher,
            steps,
            key,
            nonce,
            &self.header,
            &self.body,
            &mut out,
        )
        .unwrap();
        out
    }

    /// The sealed bytes and the calls by the reference's call list, which the library's own blocks
    /// encipher: for texts on which the reference's cipher is slow.
    pub fn sealed_by_calls(&self) -> (Vec<u8>, usize) {
        let calls = sealing::calls(&self.nonce, &self.header, &self.body);
        let tweaks: Vec<u8> = calls.iter().flat_map(|call| call.tweak).collect();
        let mut blocks: Vec<u8> = calls.iter().flat_map(|call| call.block).collect();
        let key = self.key[..].try_into().unwrap();
        raw::encipher_blocks(self.suite.0, self.suite.1, key, &tweaks, &mut blocks).unwrap();
        let enciphered: Vec<[u8; 16]> = blocks
            .chunks_exact(16)
            .map(|block| block.try_into().unwrap())
            .collect();
        let sealed = sealing::assembled(&calls, &enciphered, &self.body);
        (sealed, calls.len())
    }

    /// What the reference answers to opening.
    pub fn open_answer(&self, out_len: usize) -> OpenAnswer {
        let ((cipher, steps), key, nonce) = (self.suite, &self.key, &self.nonce);
        sealing::open(cipher, steps, key, nonce, &self.header, &self.body, out_len)
    }

    /// Seals by the library into an output of this length, and holds all that is left to the answer.
    pub fn seal_gives(&self, out_len: usize, answer: &SealAnswer, name: &str) {
        let name = self.name("seal", out_len, name);
        let mut lent = self.clone();
        let (number, result, expected) = match answer {
            Ok((sealed, calls)) => {
                let calls = *calls as u64;
                let len = sealed.len();
                (0, &sealed[..], Ok(Sealed { len, calls }))
            }
            Err(number) => (*number, &[][..], Err(refusal(*number))),
        };

        let mut out = Output::new(out_len);
        let (mut len, mut calls) = (LEN, CALLS);
        let slice = out.slice();
        // SAFETY: each slice is given with its length.
        let returned = unsafe {
            sb_seal(
                lent.suite.0,
                lent.suite.1,
                lent.key.as_ptr(),
                lent.key.len(),
                lent.nonce.as_ptr(),
                lent.nonce.len(),
                lent.header.as_ptr(),
                lent.header.len(),
                lent.body.as_ptr(),
                lent.body.len(),
                slice.as_mut_ptr(),
                slice.len(),
                &mut len,
                &mut calls,
            )
        };
        let numbers = match &expected {
            Ok(sealed) => (sealed.len as u64, sealed.calls),
            Err(_) => (LEN, CALLS),
        };
        assert_eq!(returned, number, "{name}");
        assert_eq!((len, calls), numbers, "length and calls, {name}");
        out.assert_begins_with(result, &name);

        let mut out = Output::new(out_len);
        let (cipher, steps) = self.suite;
        let returned = raw::seal(
            cipher,
            steps,
            &lent.key,
            &lent.nonce,
            &lent.header,
            &lent.body,
            out.slice(),
        );
        assert_eq!(returned, expected, "{name}");
        out.assert_begins_with(result, &name);
        black_box(&mut lent);
        assert!(lent == *self, "what is lent to be read is changed: {name}");
    }

    /// Opens by the library into an output of this length, and holds all that is left to the answer.
    pub fn open_gives(&self, out_len: usize, answer: &OpenAnswer, name: &str) {
        let name = self.name("open", out_len, name);
        let mut lent = self.clone();
        let (number, result, expected) = match answer {
            Ok(text) => (0, &text[..], Ok(text.len())),
            Err(number) => (*number, &[][..], Err(refusal(*number))),
        };

        let mut out = Output::new(out_len);
        let mut len = LEN;
        let slice = out.slice();
        // SAFETY: each slice is given with its length.
        let returned = unsafe {
            sb_open(
                lent.suite.0,
                lent.suite.1,
                lent.key.as_ptr(),
                lent.key.len(),
                lent.nonce.as_ptr(),
                lent.nonce.len(),
                lent.header.as_ptr(),
                lent.header.len(),
                lent.body.as_ptr(),
                lent.body.len(),
                slice.as_mut_ptr(),
                slice.len(),
                &mut len,
            )
        };
        assert_eq!(returned, number, "{name}");
        assert_eq!(
            len,
            expected.map_or(LEN, |len| len as u64),
            "length, {name}"
        );
        out.assert_begins_with(result, &name);

        let mut out = Output::new(out_len);
        let (cipher, steps) = self.suite;
        let returned = raw::open(
            cipher,
            steps,
            &lent.key,
            &lent.nonce,
            &lent.header,
            &lent.body,
            out.slice(),
        );
        assert_eq!(returned, expected, "{name}");
        out.assert_begins_with(result, &name);
        black_box(&mut lent);
        assert!(lent == *self, "what is lent to be read is changed: {name}");
    }

    /// Seals as the reference does and opens again, into outputs that are just long enough, longer,
    /// and too short; returns the sealed bytes with the rest.
    pub fn there_and_back(&self, name: &str) -> Given {
        let len = self.body.len();
        let answer = self.seal_answer(len + 16);
        let (sealed, _) = answer.as_ref().expect(name);
        self.seal_gives(len + 16, &answer, name);
        self.seal_gives(len + 16 + 37, &answer, name);
        self.seal_gives(len + 15, &Err(7), name);

        let given = self.with_body(sealed.clone());
        let answer = Ok(self.body.clone());
        given.open_gives(len, &answer, name);
        given.open_gives(len + 37, &answer, name);
        if len > 0 {
            given.open_gives(len - 1, &Err(7), name);
        }
        given
    }

    fn name(&self, call: &str, out_len: usize, name: &str) -> String {
        let Given {
            suite,
            key,
            nonce,
            header,
            body,
        } = self;
        format!(
            "{call}, suite {suite:?}, key {}, nonce {}, header {}, body {}, output {out_len} bytes, {name}",
            key.len(),
            nonce.len(),
            header.len(),
            body.len()
        )
    }
}
