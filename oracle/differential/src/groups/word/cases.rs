//! Fixed and random cases.

use super::{Call, Word};
use crate::rng::Rng;

const FAR_OPERANDS: [u64; 4] = [1 << 32, (1 << 32) + 1, 1 << 63, u64::MAX];
const WORD_INDEXES: [u32; 3] = [0, 1, u32::MAX];

pub fn fixed(run: &mut dyn FnMut(Call)) {
    run(Call::Bits);
    for mask in masks() {
        for word_index in WORD_INDEXES {
            let word = Word { word_index, mask };
            run(Call::Index(word));
            run(Call::BaseCol(word));
            run(Call::Mask(word));
            run(Call::Popcount(word));
            for operand in (0..=70).chain(FAR_OPERANDS) {
                run(Call::ContainsOffset(word, operand));
                run(Call::Rank(word, operand));
                run(Call::Select(word, operand));
            }
        }
    }
}

/// Every mask of the low 12 and of the high 12 bits, single bits, all bits but
/// one, runs from either end, and random ones.
fn masks() -> Vec<u64> {
    let mut masks = vec![22, u64::MAX];
    for low in 0..1 << 12 {
        masks.push(low);
        masks.push(low << 52);
    }
    for bit in 0..64 {
        masks.push(1 << bit);
        masks.push(!(1 << bit));
        masks.push((1 << bit) - 1);
        masks.push(u64::MAX << bit);
    }
    let mut rng = Rng::new(1);
    for _ in 0..2_000 {
        masks.push(rng.word());
    }
    masks
}

pub fn edges(offer: &mut dyn FnMut(Call)) {
    for mask in [0, 1, 22, 1 << 63, u64::MAX] {
        let word = Word {
            word_index: u32::MAX,
            mask,
        };
        offer(Call::Index(word));
        offer(Call::BaseCol(word));
        offer(Call::Mask(word));
        offer(Call::Popcount(word));
        for operand in [0, 1, 63, 64, 65, u64::MAX] {
            offer(Call::ContainsOffset(word, operand));
            offer(Call::Rank(word, operand));
            offer(Call::Select(word, operand));
        }
    }
}

pub fn random(rng: &mut Rng) -> Call {
    let word = Word {
        word_index: match rng.below(3) {
            0 => rng.pick(&WORD_INDEXES),
            1 => rng.below(20_000) as u32,
            _ => rng.next() as u32,
        },
        mask: rng.word(),
    };
    let operand = match rng.below(6) {
        0 => rng.pick(&[0, 1, 62, 63, 64, 65, 127, 128]),
        1 => rng.pick(&FAR_OPERANDS),
        2 => rng.next(),
        _ => rng.below(70) as u64,
    };
    match rng.below(13) {
        0 => Call::Index(word),
        1 => Call::BaseCol(word),
        2 => Call::Mask(word),
        3 => Call::Popcount(word),
        4..7 => Call::ContainsOffset(word, operand),
        7..10 => Call::Rank(word, operand),
        _ => Call::Select(word, operand),
    }
}
