//! What the cases share, and those at the edges.

use super::{Call, Mask, words_needed};
use crate::rng::Rng;

/// Indices far past every length.
pub const FAR: [u64; 4] = [1 << 32, 1 << 58, 1 << 63, u64::MAX];

pub fn edges(offer: &mut dyn FnMut(Call)) {
    for len in [1, 63, 65, 128] {
        let mask = of_index(len, len - 1);
        let words = mask.words.len() as u64;
        for word_index in [0, words - 1, words, u64::MAX] {
            offer(Call::OrWord {
                mask: mask.clone(),
                word_index,
                bits: u64::MAX,
            });
        }
        for (place, index) in [0, len as u64 - 1, len as u64, u64::MAX]
            .into_iter()
            .enumerate()
        {
            let mut indices = vec![0, len as u64 - 1, 0];
            indices.insert((place + len) % 4, index);
            offer(Call::Set {
                mask: mask.clone(),
                index,
                value: index == 0,
            });
            offer(Call::Contains {
                mask: mask.clone(),
                index,
            });
            offer(Call::FromIndices {
                len,
                indices,
                out: vec![77; words as usize + 1],
            });
        }
    }
}

pub fn full(len: usize) -> Mask {
    let mut mask = Mask {
        len,
        words: vec![u64::MAX; words_needed(len)],
    };
    clear_past(&mut mask);
    mask
}

pub fn random_right(rng: &mut Rng, len: usize) -> Mask {
    let mut mask = Mask {
        len,
        words: rng.words(words_needed(len)),
    };
    clear_past(&mut mask);
    mask
}

pub fn of_index(len: usize, index: usize) -> Mask {
    let mut words = vec![0; words_needed(len)];
    words[index / 64] = 1 << (index % 64);
    Mask { len, words }
}

/// Clears the bits at and past the length.
fn clear_past(mask: &mut Mask) {
    if !mask.len.is_multiple_of(64) {
        mask.words[mask.len / 64] &= (1 << (mask.len % 64)) - 1;
    }
}

pub fn indexes(len: usize) -> Vec<u64> {
    let len = len as u64;
    let mut indexes = vec![
        0,
        1,
        63,
        64,
        65,
        len / 2,
        len.wrapping_sub(64),
        len.wrapping_sub(1),
        len,
        len.wrapping_add(1),
        len.wrapping_add(63),
        len.wrapping_add(64),
    ];
    indexes.extend(FAR);
    indexes
}

pub fn members(mask: &Mask) -> usize {
    mask.words
        .iter()
        .map(|word| word.count_ones() as usize)
        .sum()
}

/// Every call on two masks.
pub fn on_two(mask: &Mask, other: &Mask, run: &mut dyn FnMut(Call)) {
    run(Call::UnionAssign(mask.clone(), other.clone()));
    run(Call::IntersectAssign(mask.clone(), other.clone()));
    run(Call::AndNotAssign(mask.clone(), other.clone()));
    run(Call::Intersects(mask.clone(), other.clone()));
}

/// A node asked for, then taken out and put in.
pub fn at_index(mask: &Mask, index: u64, run: &mut dyn FnMut(Call)) {
    run(Call::Contains {
        mask: mask.clone(),
        index,
    });
    for value in [false, true] {
        run(Call::Set {
            mask: mask.clone(),
            index,
            value,
        });
    }
}
