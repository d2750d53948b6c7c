//! Masks of many lengths at the edges.

use super::cases::{at_index, full, indexes, members, of_index, on_two, random_right};
use super::{Call, Mask, words_needed};
use crate::expected::SIDE_LIMIT;
use crate::rng::Rng;

const LENGTHS: [usize; 15] = [
    0,
    1,
    2,
    63,
    64,
    65,
    127,
    128,
    129,
    1_000,
    SIDE_LIMIT - 63,
    SIDE_LIMIT - 1,
    SIDE_LIMIT,
    SIDE_LIMIT + 1,
    usize::MAX,
];

pub fn run(run: &mut dyn FnMut(Call)) {
    let mut rng = Rng::new(2);
    for len in LENGTHS {
        for mask in masks(&mut rng, len) {
            on_one(&mut rng, &mask, run);
            on_two(&mask, &mask, run);
        }
        pairs(&mut rng, len, run);
        new_masks(&mut rng, len, run);
        index_lists(&mut rng, len, run);
    }
}

/// Masks of one length: empty, full, single bits, random; then with a word too
/// few or too many, and with a bit at each place past the length.
fn masks(rng: &mut Rng, len: usize) -> Vec<Mask> {
    if len > SIDE_LIMIT {
        let rooms = [0, 1, words_needed(SIDE_LIMIT), words_needed(SIDE_LIMIT + 1)];
        return rooms
            .into_iter()
            .map(|room| Mask {
                len,
                words: vec![0; room],
            })
            .collect();
    }
    let mut masks = vec![full(len), random_right(rng, len), random_right(rng, len)];
    if len > 0 {
        masks.push(of_index(len, 0));
        masks.push(of_index(len, len - 1));
    }
    let plain = Mask {
        len,
        words: vec![0; words_needed(len)],
    };
    for mask in [plain.clone(), random_right(rng, len)] {
        for bit in len..words_needed(len) * 64 {
            let mut stray = mask.clone();
            stray.words[bit / 64] |= 1 << (bit % 64);
            masks.push(stray);
        }
        let mut short = mask.clone();
        short.words.pop();
        let mut long = mask.clone();
        long.words.push(0);
        let mut long_and_stray = mask.clone();
        long_and_stray.words.push(u64::MAX);
        masks.extend([short, long, long_and_stray]);
    }
    masks.push(plain);
    masks
}

/// Every call on one mask, with operands near the edges.
fn on_one(rng: &mut Rng, mask: &Mask, run: &mut dyn FnMut(Call)) {
    run(Call::Check(mask.clone()));
    run(Call::IsEmpty(mask.clone()));
    run(Call::CountOnes(mask.clone()));
    for index in indexes(mask.len) {
        at_index(mask, index, run);
    }
    let words = mask.words.len() as u64;
    for word_index in [0, 1, words.wrapping_sub(1), words, words + 1, u64::MAX] {
        for bits in [0, 1, 1 << 63, u64::MAX, rng.next()] {
            run(Call::OrWord {
                mask: mask.clone(),
                word_index,
                bits,
            });
        }
    }
    for room in rooms(members(mask)) {
        run(Call::Indices {
            mask: mask.clone(),
            out: rng.words(room),
        });
    }
}

/// Room for none, one short, exactly enough, one and five more.
fn rooms(needed: usize) -> [usize; 5] {
    [0, needed.saturating_sub(1), needed, needed + 1, needed + 5]
}

/// A right and a faulty first mask with right and faulty second masks, of the
/// same and of other lengths.
fn pairs(rng: &mut Rng, len: usize, run: &mut dyn FnMut(Call)) {
    let firsts = masks(rng, len);
    let mut others = masks(rng, len);
    for other_len in [len.wrapping_sub(1), len.wrapping_add(1), len / 2] {
        if other_len <= SIDE_LIMIT {
            others.push(random_right(rng, other_len));
        }
    }
    for other_len in [0, SIDE_LIMIT + 1, usize::MAX] {
        others.push(Mask {
            len: other_len,
            words: vec![u64::MAX; words_needed(len.min(SIDE_LIMIT))],
        });
    }
    for other in &others {
        on_two(&firsts[0], other, run);
        on_two(&firsts[1], other, run);
        on_two(&firsts[rng.below(firsts.len())], other, run);
    }
}

fn new_masks(rng: &mut Rng, len: usize, run: &mut dyn FnMut(Call)) {
    for room in rooms(words_needed(len.min(SIDE_LIMIT + 1))) {
        run(Call::New {
            len,
            out: rng.words(room),
        });
    }
}

/// Index lists with repeats, and with an index out of range first, in the
/// middle and last.
fn index_lists(rng: &mut Rng, len: usize, run: &mut dyn FnMut(Call)) {
    let inside = len.clamp(1, SIDE_LIMIT);
    let mut random: Vec<u64> = (0..40).map(|_| rng.below(inside) as u64).collect();
    random.extend_from_within(..10);
    let rising = (0..inside.min(3_000) as u64).collect();
    let last = inside as u64 - 1;
    let mut lists = vec![vec![], vec![0], vec![last], vec![last; 5], rising];
    for outside in [
        len as u64,
        (len as u64).wrapping_add(1),
        words_needed(len).saturating_mul(64) as u64,
        u64::MAX,
    ] {
        for place in [0, random.len() / 2, random.len()] {
            let mut list = random.clone();
            list.insert(place, outside);
            lists.push(list);
        }
        lists.push(vec![outside]);
    }
    lists.push(random);
    for indices in lists {
        for room in rooms(words_needed(len.min(SIDE_LIMIT + 1))) {
            run(Call::FromIndices {
                len,
                indices: indices.clone(),
                out: rng.words(room),
            });
        }
    }
}
