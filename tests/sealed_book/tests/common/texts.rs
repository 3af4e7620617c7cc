//! Texts of several kinds, for scores: such as repeat themselves, and such as do not.

use reference::random::Random;

/// What a text is like.
#[derive(Clone, Copy, Debug, PartialEq)]
pub enum Kind {
    /// Any bytes.
    Bytes,
    /// One letter.
    OneLetter,
    /// So many letters, again and again.
    Period(usize),
    /// Two letters at random.
    TwoLetters,
    /// Words and blanks.
    Words,
    /// Bytes whose trigrams, one in three of them, fall on few chains of a hash table that takes a trigram b0,
    /// b1, b2 as v = b0 + 256 b1 + 65,536 b2 and v * 2,654,435,761 / 2^21 % 2^11 as its chain.
    FewChains,
}

use Kind::*;

/// All of them.
pub const KINDS: [Kind; 7] = [
    Bytes,
    OneLetter,
    Period(2),
    Period(3),
    TwoLetters,
    Words,
    FewChains,
];

const WORDS: [&str; 24] = [
    "the", "valve", "valves", "a", "pump", "pumps", "close", "open", "of", "and", "button",
    "buttons", "hold", "down", "up", "drain", "is", "in", "to", "minutes", "two", "too", "Ölstand",
    "prüfen",
];

/// A text of this kind with so many bytes.
pub fn text(random: &mut Random, kind: Kind, len: usize) -> Vec<u8> {
    match kind {
        Bytes => random.some_bytes(len),
        OneLetter => vec![b'a'; len],
        Period(n) => (0..len).map(|i| b'a' + (i % n) as u8).collect(),
        TwoLetters => (0..len).map(|_| random.one_of(b"ab")).collect(),
        Words => {
            let mut text = Vec::new();
            while text.len() < len {
                text.extend(random.one_of(&WORDS).bytes());
                text.push(b' ');
            }
            text.truncate(len);
            text
        }
        FewChains => {
            let mut text = Vec::new();
            while text.len() < len {
                text.extend(on_chain(random, 5));
            }
            text.truncate(len);
            text
        }
    }
}

/// A trigram on one of the first chains, so many of them.
fn on_chain(random: &mut Random, chains: u64) -> [u8; 3] {
    loop {
        let [a, b, c] = random.bytes();
        let v = u64::from(a) + 256 * u64::from(b) + 65_536 * u64::from(c);
        if v * 2_654_435_761 / 2_097_152 % 2_048 < chains {
            return [a, b, c];
        }
    }
}

/// A text with some of its bytes changed, taken away or put in, and parts of it moved.
pub fn edited(random: &mut Random, text: &[u8]) -> Vec<u8> {
    let mut text = text.to_vec();
    for _ in 0..random.below(4) {
        let at = random.below(text.len() + 1);
        match random.below(4) {
            0 => text.insert(at, random.one_of(b"abe .")),
            1 if at < text.len() => drop(text.remove(at)),
            2 if at < text.len() => text[at] = random.one_of(b"abe ."),
            _ => text.rotate_left(at),
        }
    }
    text
}
