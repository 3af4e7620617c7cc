//! How alike two segments are.
//!
//! Quoted sentences are the request's. Its runs of three bytes are trigrams here.

use std::collections::BTreeMap;

/// "For a segment take its three-byte runs, none if shorter than 3." The trigram from each place on, in the
/// order of the places.
fn trigrams(segment: &[u8]) -> Vec<[u8; 3]> {
    let mut trigrams = Vec::new();
    for start in 0..segment.len() {
        if let Some(&[a, b, c]) = segment.get(start..start + 3) {
            trigrams.push([a, b, c]);
        }
    }
    trigrams
}

/// How often each trigram stands there.
fn counted(trigrams: &[[u8; 3]]) -> BTreeMap<[u8; 3], u64> {
    let mut counts = BTreeMap::new();
    for trigram in trigrams {
        *counts.entry(*trigram).or_insert(0) += 1;
    }
    counts
}

/// "c shared (each run counted as often as both have it)"
fn shared(one: &[[u8; 3]], other: &[[u8; 3]]) -> u64 {
    let (one, other) = (counted(one), counted(other));
    let both = one.iter().map(|(trigram, count)| {
        let others = other.get(trigram).copied().unwrap_or(0);
        others.min(*count)
    });
    both.sum()
}

/// "With p and q runs and c shared .., the score is 2,000 × c divided by p + q, rounded down; if p + q is 0
/// it is 1,000 for equal segments and 0 otherwise."
pub fn score(source: &[u8], typed: &[u8]) -> u32 {
    let (one, other) = (trigrams(source), trigrams(typed));
    let (p, q) = (one.len() as u64, other.len() as u64);
    if p + q == 0 {
        return if source == typed { 1_000 } else { 0 };
    }
    let score = 2_000 * shared(&one, &other) / (p + q);
    u32::try_from(score).expect("at most 1,000")
}

#[cfg(test)]
mod tests {
    use super::*;

    /// Scores that were worked out by hand: p, q, c and what follows from them.
    #[test]
    fn worked_by_hand() {
        for (one, other, p, q, c, expected) in [
            // val alv lve, and ves: 6,000 / 7 is 857 and one seventh
            ("valve", "valves", 3, 4, 3, 857),
            // no trigrams: equal or not
            ("", "", 0, 0, 0, 1_000),
            ("a", "a", 0, 0, 0, 1_000),
            ("ab", "ab", 0, 0, 0, 1_000),
            ("ab", "cd", 0, 0, 0, 0),
            ("a", "", 0, 0, 0, 0),
            // trigrams on one side only
            ("ab", "abc", 0, 1, 0, 0),
            ("", "valves", 0, 4, 0, 0),
            // aaa twice, and four times: 4,000 / 6 is 666 and two thirds
            ("aaaa", "aaaaaa", 2, 4, 2, 666),
            // abc bca cab abc, and abc: 2,000 / 5
            ("abcabc", "abc", 4, 1, 1, 400),
            // ban ana nan ana, and ana nan ana nas: ana twice and nan: 6,000 / 8
            ("banana", "ananas", 4, 4, 3, 750),
            // abc bcd and bcd cde: 2,000 / 4
            ("abcd", "bcde", 2, 2, 1, 500),
            // of the 15 of "Close the valves." all but ves and es. stand in the first; " th", "the" and "he "
            // in the second; "es." in the third: 26,000 / 29, 6,000 / 28 and 2,000 / 30
            ("Close the valve.", "Close the valves.", 14, 15, 13, 896),
            ("Open the drain.", "Close the valves.", 13, 15, 3, 214),
            ("Wait two minutes.", "Close the valves.", 15, 15, 1, 66),
            // they share "Hold the button " and "Hold the button up." has three more: 28,000 / 36; and " the ":
            // 6,000 / 31
            (
                "Hold the button down.",
                "Hold the button up.",
                19,
                17,
                14,
                777,
            ),
            ("Close the valve.", "Hold the button up.", 14, 17, 3, 193),
            // abc, and Abc: a capital is another byte
            ("abc", "Abc", 1, 1, 0, 0),
            // the order within a run counts
            ("abc", "cba", 1, 1, 0, 0),
            ("abc", "abc", 1, 1, 1, 1_000),
        ] {
            let [one, other] = [one, other].map(str::as_bytes);
            let [first, second] = [one, other].map(trigrams);
            let name = format!("{one:?} and {other:?}");
            assert_eq!((first.len(), second.len()), (p, q), "{name}");
            assert_eq!(shared(&first, &second), c, "{name}");
            assert_eq!(shared(&second, &first), c, "{name}");
            assert_eq!(score(one, other), expected, "{name}");
            assert_eq!(score(other, one), expected, "{name}");
        }
    }

    /// Bytes, not letters: the two bytes of a letter are two, and zeros and 255 are bytes as others are.
    #[test]
    fn bytes_of_all_kinds() {
        // C3 B6 66, B6 66 66 and 66 66 6E, and ö is C3 B6
        assert_eq!(trigrams("öffn".as_bytes()).len(), 3);
        assert_eq!(score("ö".as_bytes(), b"\xC3\xB6"), 1_000);
        assert_eq!(score("ö".as_bytes(), b"\xC3\xB7"), 0);
        // ä is C3 A4: of three trigrams each, ffn is shared
        assert_eq!(score("öffn".as_bytes(), "äffn".as_bytes()), 333);
        assert_eq!(score(&[0; 3], &[0; 4]), 666);
        assert_eq!(score(&[255, 0, 255, 0, 255], &[255, 0, 255]), 500);
        assert_eq!(score(&[0, 0, 1], &[1, 0, 0]), 0);
    }

    /// Long ones, of which the trigrams are counted by hand: so many of one letter, and of two in turn.
    #[test]
    fn long_segments() {
        // aaa 4,094 times and 98 times: 196,000 / 4,192 is 46 and some
        assert_eq!(score(&[b'a'; 4_096], &[b'a'; 100]), 46);
        // aaa 19,998 times and 4,094 times: 8,188,000 / 24,092 is 339 and some
        assert_eq!(score(&[b'a'; 20_000], &[b'a'; 4_096]), 339);
        // aba 1,024 times and bab 1,024 times; aba 49 times and bab 49 times: 196,000 / 2,146 is 91 and some
        let long = b"ab".repeat(1_025);
        assert_eq!(score(&long, &b"ab".repeat(50)), 91);
        assert_eq!(score(&long, &long), 1_000);
    }
}
