//! The calls of the cipher that a sealing, or opening parts of a book, takes, for making them alone.

use reference::random::Random;
use reference::sealing::calls;
use sealed_book::raw;

/// The tweaks and blocks of a call list, with what they are enciphered under.
#[derive(Clone)]
pub struct CallList {
    suite: (u8, u8),
    key: [u8; 16],
    tweaks: Vec<u8>,
    blocks: Vec<u8>,
}

impl CallList {
    /// The call list of a text's sealing.
    pub fn new(
        suite: (u8, u8),
        key: [u8; 16],
        nonce: &[u8],
        header: &[u8],
        text: &[u8],
    ) -> CallList {
        let calls = calls(nonce, header, text);
        CallList {
            suite,
            key,
            tweaks: calls.iter().flat_map(|call| call.tweak).collect(),
            blocks: calls.iter().flat_map(|call| call.block).collect(),
        }
    }

    /// How many calls it has.
    pub fn count(&self) -> usize {
        self.blocks.len() / 16
    }

    /// As many blocks enciphered as the call list has, by one call of the library.
    pub fn encipher(&mut self) {
        let ((cipher, steps), tweaks, blocks) = (self.suite, &self.tweaks, &mut self.blocks);
        raw::encipher_blocks(cipher, steps, &self.key, tweaks, blocks)
            .expect("the suite is listed");
    }
}

/// As many tweaks and blocks as the longest part that is opened takes, with what they are enciphered and
/// deciphered under, and how many each part takes: a unit, or the close.
#[derive(Clone)]
pub struct OpenCalls {
    suite: (u8, u8),
    key: [u8; 16],
    tweaks: Vec<u8>,
    blocks: Vec<u8>,
    counts: Vec<Counts>,
}

/// The calls of a unit, or the close, in bytes.
#[derive(Clone, Copy)]
struct Counts {
    /// Header blocks, the last text block and the tag's.
    enciphered: usize,
    /// The other text blocks.
    deciphered: usize,
}

impl Counts {
    /// Of a unit with a text of so many bytes; each of its blocks is enciphered or deciphered once.
    fn of_unit(len: usize) -> Counts {
        Counts {
            enciphered: 16 * 4,
            deciphered: 16 * (len.div_ceil(16) - 1),
        }
    }

    const CLOSE: Counts = Counts {
        enciphered: 16 * 3,
        deciphered: 0,
    };
}

impl OpenCalls {
    /// For checking a book whose units have texts of these lengths.
    pub fn of_book(
        suite: (u8, u8),
        key: [u8; 16],
        texts: impl Iterator<Item = usize>,
    ) -> OpenCalls {
        let counts = texts.map(Counts::of_unit).chain([Counts::CLOSE]);
        OpenCalls::new(suite, key, counts.collect())
    }

    /// For opening a unit that has a text of this length.
    pub fn of_unit(suite: (u8, u8), key: [u8; 16], text: usize) -> OpenCalls {
        OpenCalls::new(suite, key, vec![Counts::of_unit(text)])
    }

    fn new(suite: (u8, u8), key: [u8; 16], counts: Vec<Counts>) -> OpenCalls {
        let lengths = counts.iter().map(|one| one.enciphered.max(one.deciphered));
        let longest = lengths.max().unwrap_or(0);
        let mut random = Random::new(2014);
        OpenCalls {
            suite,
            key,
            tweaks: random.some_bytes(longest),
            blocks: random.some_bytes(longest),
            counts,
        }
    }

    /// How many calls they are in all.
    pub fn count(&self) -> usize {
        let bytes = self
            .counts
            .iter()
            .map(|one| one.enciphered + one.deciphered);
        bytes.sum::<usize>() / 16
    }

    /// For each part as many blocks deciphered and enciphered as it takes, by a call of the library each.
    pub fn run(&mut self) {
        let ((cipher, steps), key) = (self.suite, &self.key);
        for one in &self.counts {
            let (tweaks, blocks) = (&self.tweaks, &mut self.blocks[..one.deciphered]);
            raw::decipher_blocks(cipher, steps, key, tweaks, blocks).expect("the suite is listed");
            let blocks = &mut self.blocks[..one.enciphered];
            raw::encipher_blocks(cipher, steps, key, tweaks, blocks).expect("the suite is listed");
        }
    }
}
