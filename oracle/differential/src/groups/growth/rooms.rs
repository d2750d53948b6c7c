//! How long lent lists are, and how long they must be.

use super::Lent;
use crate::rng::Rng;

/// Lists of three lengths with content that no growth leaves.
pub fn lent(lengths: [usize; 3]) -> Lent {
    Lent {
        region: vec![0x7777_7777_7777_7777; lengths[0]],
        frontier: vec![0x8888_8888_8888_8888; lengths[1]],
        scratch: vec![0x9999_9999_9999_9999; lengths[2]],
    }
}

/// As needed; each list alone one short, empty, one and five longer; all of
/// them longer; all of them empty.
pub fn near(needed: usize) -> Vec<[usize; 3]> {
    let mut all = vec![[needed; 3], [needed + 3; 3], [0; 3]];
    for place in 0..3 {
        for length in around(needed) {
            let mut lengths = [needed; 3];
            lengths[place] = length;
            all.push(lengths);
        }
    }
    all
}

/// One short, none, one and five more.
pub fn around(needed: usize) -> [usize; 4] {
    [needed.saturating_sub(1), 0, needed + 1, needed + 5]
}

/// With some content, mostly long enough.
pub fn random(rng: &mut Rng, needed: usize) -> Lent {
    let [region, frontier, scratch] = [0; 3].map(|_| room(rng, needed));
    Lent {
        region,
        frontier,
        scratch,
    }
}

pub fn room(rng: &mut Rng, needed: usize) -> Vec<u64> {
    match rng.below(12) {
        0 => rng.room(needed),
        1 | 2 => rng.words(needed + 1 + needed % 3),
        _ => rng.words(needed),
    }
}

pub fn narrow(rng: &mut Rng, needed: usize) -> Vec<u32> {
    let wide = room(rng, needed).into_iter();
    wide.map(|element| element as u32).collect()
}
