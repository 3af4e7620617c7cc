//! Segments that were chosen to be slow to score: as many of their trigrams as a search finds fall on one chain
//! of the library's table.

use std::collections::{HashMap, HashSet};

type Trigram = [u8; 3];

/// The library's chain of a trigram, of 2,048.
fn chain([a, b, c]: Trigram) -> u64 {
    let v = u64::from(a) + 256 * u64::from(b) + 65_536 * u64::from(c);
    v * 2_654_435_761 / 2_097_152 % 2_048
}

/// The trigrams of one chain that were not used yet, by their first two bytes.
struct Chain {
    behind: HashMap<[u8; 2], Vec<u8>>,
    used: HashSet<Trigram>,
}

impl Chain {
    fn new() -> Chain {
        let mut behind: HashMap<[u8; 2], Vec<u8>> = HashMap::new();
        for v in 0..1u32 << 24 {
            let [a, b, c, _] = v.to_le_bytes();
            if chain([a, b, c]) == 0 {
                behind.entry([a, b]).or_default().push(c);
            }
        }
        Chain {
            behind,
            used: HashSet::new(),
        }
    }

    /// The longest row, of so many bytes at most, each of which makes a trigram of the chain with the two before it.
    fn row(&self, [a, b]: [u8; 2], most: usize) -> Vec<u8> {
        let mut longest = Vec::new();
        if most == 0 {
            return longest;
        }
        for &c in self.behind.get(&[a, b]).into_iter().flatten() {
            if !self.used.contains(&[a, b, c]) {
                let row = [&[c][..], &self.row([b, c], most - 1)].concat();
                if row.len() > longest.len() {
                    longest = row;
                }
            }
        }
        longest
    }

    /// What comes behind two bytes: a row, or else a byte behind which the longest one comes.
    fn next(&self, [a, b]: [u8; 2]) -> Vec<u8> {
        let row = self.row([a, b], 8);
        if !row.is_empty() {
            return row;
        }
        let rows = (0..=255).map(|c| [&[c][..], &self.row([b, c], 8)].concat());
        rows.max_by_key(Vec::len).expect("256 rows")
    }

    /// A segment of so many bytes.
    fn segment(&mut self, len: usize) -> Vec<u8> {
        let mut segment = vec![0, 0];
        while segment.len() < len {
            let [.., a, b] = segment[..] else {
                unreachable!("two bytes stand there");
            };
            for c in self.next([a, b]) {
                let [.., a, b] = segment[..] else {
                    unreachable!("two bytes stand there");
                };
                self.used.insert([a, b, c]);
                segment.push(c);
            }
        }
        segment.truncate(len);
        segment
    }
}

/// How many different trigrams of a segment the fullest chain has.
pub fn on_one_chain(segment: &[u8]) -> usize {
    let trigrams = segment
        .windows(3)
        .map(|three| [three[0], three[1], three[2]]);
    let different: HashSet<Trigram> = trigrams.collect();
    let mut counts = [0; 2_048];
    for trigram in different {
        counts[chain(trigram) as usize] += 1;
    }
    counts.into_iter().max().unwrap_or(0)
}

/// Two segments of so many bytes, on the same chain and with no trigram of it in common, so that each search goes
/// over the whole chain and finds nothing.
pub fn slow_segments(len: usize) -> [Vec<u8>; 2] {
    let mut chain = Chain::new();
    let one = chain.segment(len);
    [one, chain.segment(len)]
}
