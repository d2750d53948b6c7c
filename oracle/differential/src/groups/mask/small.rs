//! Small masks, all of a kind.

use super::cases::{FAR, at_index, on_two};
use super::{Call, Mask};
use crate::expected::SIDE_LIMIT;

pub fn run(run: &mut dyn FnMut(Call)) {
    all_masks(run);
    all_pairs(run);
    all_index_lists(run);
}

/// Every mask of up to 6 nodes, and some with bits past the length or with a
/// word too few or too many, with every index near the length and the word.
fn all_masks(run: &mut dyn FnMut(Call)) {
    for len in 0..=6 {
        for mask in small(len) {
            for index in (0..=len as u64 + 1).chain([63, 64, 65]).chain(FAR) {
                with_index(&mask, index, run);
            }
            for bits in 0..1 << (len + 1) {
                run(Call::OrWord {
                    mask: mask.clone(),
                    word_index: 0,
                    bits,
                });
            }
            run(Call::Check(mask.clone()));
            run(Call::IsEmpty(mask.clone()));
            run(Call::CountOnes(mask.clone()));
            for room in 0..=len + 2 {
                run(Call::Indices {
                    mask: mask.clone(),
                    out: vec![77; room],
                });
            }
        }
    }
}

/// The index of a node, then of a word.
fn with_index(mask: &Mask, index: u64, run: &mut dyn FnMut(Call)) {
    at_index(mask, index, run);
    for bits in [0, 1, 1 << mask.len, 1 << 63, u64::MAX] {
        run(Call::OrWord {
            mask: mask.clone(),
            word_index: index,
            bits,
        });
    }
}

fn small(len: usize) -> Vec<Mask> {
    let mut masks = vec![];
    for bits in 0..1 << len {
        for stray in [0, 1 << len, 1 << 63] {
            masks.push(Mask {
                len,
                words: vec![bits | stray],
            });
        }
        masks.push(Mask {
            len,
            words: vec![bits, 0],
        });
    }
    for words in [vec![], vec![u64::MAX], vec![0, 1], vec![0, 0, 0]] {
        masks.push(Mask { len, words });
    }
    masks
}

/// Every pair of masks of up to 6 nodes, and every pair of the faulty ones.
fn all_pairs(run: &mut dyn FnMut(Call)) {
    for len in 0..=6 {
        let masks = small(len);
        for mask in &masks {
            for other in &masks {
                on_two(mask, other, run);
            }
            for other_len in [len + 1, len + 64, SIDE_LIMIT + 1, usize::MAX] {
                let mut other = mask.clone();
                other.len = other_len;
                on_two(mask, &other, run);
                on_two(&other, mask, run);
            }
        }
    }
}

/// Every list of up to 3 indices near the length, for masks of up to 4 nodes.
fn all_index_lists(run: &mut dyn FnMut(Call)) {
    for len in 0..=4 {
        let choice: Vec<u64> = (0..=len as u64 + 1).chain([63, 64, u64::MAX]).collect();
        let mut lists = vec![vec![]];
        for &a in &choice {
            lists.push(vec![a]);
            for &b in &choice {
                lists.push(vec![a, b]);
                lists.extend(choice.iter().map(|&c| vec![a, b, c]));
            }
        }
        for indices in lists {
            for room in 0..=2 {
                run(Call::FromIndices {
                    len,
                    indices: indices.clone(),
                    out: vec![77; room],
                });
            }
        }
    }
}
