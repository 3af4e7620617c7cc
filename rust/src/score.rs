//! How alike two segments are.

use crate::raw;

/// How alike two segments are, of any length, empty ones too: 0 to 1,000, and the same both ways round.
///
/// A segment has a run of three bytes from each place on but its last two. With p and q runs, and c of them shared,
/// each counted as often as both have it, the score is 2,000 × c / (p + q), rounded down. Where both are shorter
/// than three bytes it is 1,000 for equal segments and 0 for others. Bytes are compared, whatever they mean: a
/// letter of two bytes is two, and a capital is another letter.
///
/// Where one of them has at most 4,096 bytes, as any segment of a book, the time grows with the length of the two
/// together, for ordinary texts and for such as repeat themselves. Of two longer ones it may take some hundreds
/// of times as long, and so it may where bytes were chosen for that.
///
/// ```
/// use sealed_book::score;
///
/// // val, alv, lve are shared, of 3 and 4 runs: 6,000 / 7
/// assert_eq!(score("valve", "valves"), 857);
/// assert_eq!(score("Close the valve.", "Close the valve."), 1_000);
/// assert_eq!(score("valve", "Ventil"), 0);
/// assert_eq!((score("", ""), score("ab", "ab"), score("ab", "ba")), (1_000, 1_000, 0));
/// ```
pub fn score(a: impl AsRef<[u8]>, b: impl AsRef<[u8]>) -> u32 {
    raw::score(a.as_ref(), b.as_ref())
}
