//! Calls that are refused for every set of causes.

use std::fmt::Debug;

use reference::random::Random;

/// Random cases for each set of causes.
pub const CASES: usize = 20;

/// A cause of refusal. Where calls are refused by one number in several places, there are more causes
/// than numbers.
pub trait Cause: Copy + Debug {
    /// The refusal's number.
    fn number(self) -> u32;
}

impl Cause for u32 {
    fn number(self) -> u32 {
        self
    }
}

/// Every set of these causes, in their order.
pub fn sets<C: Cause>(causes: &[C]) -> Vec<Vec<C>> {
    let set = |bits: usize| {
        let kept = causes
            .iter()
            .enumerate()
            .filter(|(i, _)| bits >> i & 1 == 1);
        kept.map(|(_, cause)| *cause).collect()
    };
    (0..1 << causes.len()).map(set).collect()
}

/// Those of no more than two.
pub fn small_sets<C: Cause>(causes: &[C]) -> Vec<Vec<C>> {
    let mut sets = sets(causes);
    sets.retain(|set| set.len() <= 2);
    sets
}

/// Makes so many cases of each set, with random bytes from the seed and under a name. A case returns
/// the reference's answer, which must be the first cause of the set. Returns how often each refusal
/// was given, and at 0 how often none.
pub fn first_is_given<C: Cause, T>(
    seed: u64,
    sets: &[Vec<C>],
    cases: usize,
    mut case: impl FnMut(&mut Random, &[C], &str) -> Result<T, u32>,
) -> [usize; 17] {
    let mut random = Random::new(seed);
    let mut refused = [0; 17];
    for set in sets {
        for _ in 0..cases {
            let name = format!("causes {set:?}, seed {seed:X}");
            let number = case(&mut random, set, &name).err();
            let first = set.first().map(|cause| cause.number());
            assert_eq!(number, first, "reference, {name}");
            refused[number.unwrap_or(0) as usize] += 1;
        }
    }
    refused
}
