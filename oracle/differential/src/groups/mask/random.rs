//! Random cases.

use super::cases::{FAR, indexes, members, of_index, random_right};
use super::{Call, Mask, words_needed};
use crate::expected::SIDE_LIMIT;
use crate::rng::Rng;

/// One call at random; a third of the masks are faulty.
pub fn random(rng: &mut Rng) -> Call {
    let len = random_length(rng);
    let mask = random_mask(rng, len);
    match rng.below(13) {
        0 => Call::Check(mask),
        1 => Call::New {
            len: mask.len,
            out: rng.room(words_needed(len)),
        },
        2 => Call::FromIndices {
            len: mask.len,
            indices: random_indices(rng, len),
            out: rng.room(words_needed(len)),
        },
        3 => Call::IsEmpty(mask),
        4 => Call::CountOnes(mask),
        5 => Call::Set {
            index: random_index(rng, len),
            value: rng.once_in(2),
            mask,
        },
        6 => Call::Contains {
            index: random_index(rng, len),
            mask,
        },
        7 => Call::UnionAssign(mask, random_other(rng, len)),
        8 => Call::IntersectAssign(mask, random_other(rng, len)),
        9 => Call::AndNotAssign(mask, random_other(rng, len)),
        10 => Call::Intersects(mask, random_other(rng, len)),
        11 => Call::Indices {
            out: rng.room(members(&mask)),
            mask,
        },
        _ => random_or_word(rng, mask),
    }
}

fn random_length(rng: &mut Rng) -> usize {
    match rng.below(1_000) {
        0 => rng.below(SIDE_LIMIT + 1),
        1..300 => rng.pick(&[0, 1, 2, 63, 64, 65, 127, 128, 129, 1_000]),
        300..600 => rng.below(70),
        _ => rng.below(1_000),
    }
}

fn random_mask(rng: &mut Rng, len: usize) -> Mask {
    let mut mask = match rng.below(4) {
        0 => Mask {
            len,
            words: vec![0; words_needed(len)],
        },
        1 if len > 0 => of_index(len, rng.below(len)),
        _ => random_right(rng, len),
    };
    for _ in 0..rng.pick(&[0, 0, 0, 0, 0, 1, 1, 2]) {
        damage(rng, &mut mask);
    }
    mask
}

fn damage(rng: &mut Rng, mask: &mut Mask) {
    match rng.below(6) {
        0 => mask.len = rng.pick(&[SIDE_LIMIT + 1, 1 << 32, usize::MAX - 63, usize::MAX]),
        1 => drop(mask.words.pop()),
        2 => mask.words.push(rng.word()),
        _ => {
            let past = mask.words.len() * 64 - mask.len.min(mask.words.len() * 64);
            if past > 0 {
                let bit = mask.len + rng.below(past);
                mask.words[bit / 64] |= 1 << (bit % 64);
            }
        }
    }
}

/// A second mask: mostly of the same length.
fn random_other(rng: &mut Rng, len: usize) -> Mask {
    let other_len = match rng.below(8) {
        0 => len + 1,
        1 => random_length(rng),
        _ => len,
    };
    random_mask(rng, other_len)
}

fn random_or_word(rng: &mut Rng, mask: Mask) -> Call {
    Call::OrWord {
        word_index: match rng.below(6) {
            0 => rng.pick(&FAR),
            _ => rng.below(mask.words.len() + 2) as u64,
        },
        bits: rng.word(),
        mask,
    }
}

fn random_index(rng: &mut Rng, len: usize) -> u64 {
    if rng.once_in(3) {
        return rng.pick(&indexes(len));
    }
    rng.below(len + 2) as u64
}

/// Mostly all in range, else one index is not.
fn random_indices(rng: &mut Rng, len: usize) -> Vec<u64> {
    let count = rng.below(12);
    let mut indices: Vec<u64> = (0..count).map(|_| rng.below(len.max(1)) as u64).collect();
    if rng.once_in(3) {
        indices.insert(rng.below(count + 1), random_index(rng, len));
    }
    indices
}
