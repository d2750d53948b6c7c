//! Random cases.

use super::cases::{Block, KINDS, built};
use super::orders::{ORDERS, make_near_twin, make_twin, ordered, resize};
use super::questions::{FAR, mask_words, near, total};
use super::{Blocks, Call, Layout, Question, offsets};
use crate::expected::SIDE_LIMIT;
use crate::rng::Rng;

/// One call at random; about half of the layouts are faulty.
pub fn random(rng: &mut Rng) -> Call {
    if rng.once_in(20) {
        return Call::KindOf(random_code(rng));
    }
    let layout = random_layout(rng);
    if rng.once_in(6) {
        let needed = layout.blocks.kinds.len() + 1;
        return Call::New {
            out: rng.room(needed),
            blocks: layout.blocks,
        };
    }
    let question = random_question(rng, &layout);
    Call::Asked(layout, question)
}

fn random_code(rng: &mut Rng) -> u32 {
    match rng.below(4) {
        0 => u32::from(rng.pick(&KINDS)),
        1 => rng.next() as u32,
        2 => u32::from(rng.pick(&KINDS)) | 1 << (8 + rng.below(24)),
        _ => rng.below(300) as u32,
    }
}

fn random_layout(rng: &mut Rng) -> Layout {
    let mut list = random_list(rng);
    for _ in 0..rng.pick(&[0, 0, 0, 0, 1, 1, 2]) {
        plant_fault(rng, &mut list);
    }
    let mut layout = built(&list);
    if rng.once_in(6) {
        damage_offsets(rng, &mut layout.offsets);
    }
    for _ in 0..rng.pick(&[0, 0, 0, 0, 0, 0, 0, 0, 1, 2]) {
        damage_blocks(rng, &mut layout.blocks);
    }
    layout
}

/// Blocks in some order, or of few keys, so that some come twice.
fn random_list(rng: &mut Rng) -> Vec<Block> {
    let count = match rng.below(1_000) {
        0 => 1 + rng.below(300),
        1..50 => 1 + rng.below(40),
        _ => 1 + rng.below(8),
    };
    let order = rng.pick(&ORDERS);
    let mut list = ordered(rng, order, count);
    if rng.once_in(5) {
        for block in &mut list {
            block.kind = rng.pick(&[1, 2, 255]);
            block.id = rng.pick(&[0, 1, u64::MAX]);
            block.field = rng.pick(&[0, 1, u32::MAX]);
        }
    }
    resize(rng, &mut list);
    list
}

pub fn plant_fault(rng: &mut Rng, list: &mut [Block]) {
    let at = rng.below(list.len());
    let from = rng.below(at + 1);
    match rng.below(16) {
        0..4 => list[at].kind = rng.next() as u8,
        4..8 => list[at].components = 0,
        8..11 => make_twin(list, from, at),
        11..14 => make_near_twin(rng, list, from, at),
        14 => list[at].components = rng.pick(&[SIDE_LIMIT as u32 + 1, u32::MAX, 1 << 31]),
        _ => {
            list[at].components = 0;
            let others: u64 = list.iter().map(|block| u64::from(block.components)).sum();
            let rest = (SIDE_LIMIT as u64).saturating_sub(others);
            list[at].components = (rest + rng.below(3) as u64) as u32;
        }
    }
}

pub fn damage_offsets(rng: &mut Rng, list: &mut Vec<u64>) {
    if list.len() < 20 {
        let damaged = offsets::damaged(list);
        list.clone_from(&damaged[rng.below(damaged.len())]);
        return;
    }
    let at = rng.below(list.len());
    match rng.below(3) {
        0 => list[at] = list[at].wrapping_add(rng.pick(&[1, u64::MAX])),
        1 => drop(list.remove(at)),
        _ => list.insert(at, list[at]),
    }
}

/// Makes one of the four lists a little shorter or longer, or empty.
pub fn damage_blocks(rng: &mut Rng, blocks: &mut Blocks) {
    let count = blocks.kinds.len();
    let length = rng.pick(&[0, count.saturating_sub(1), count + 1, count + 2]);
    match rng.below(7) {
        0 => blocks.kinds.resize(length, 1),
        1 | 2 => blocks.ids.resize(length, 99),
        3 | 4 => blocks.fields.resize(length, 99),
        _ => blocks.components.resize(length, 1),
    }
}

fn random_question(rng: &mut Rng, layout: &Layout) -> Question {
    let blocks = layout.blocks.kinds.len();
    match rng.below(9) {
        0 => Question::Check,
        1 => Question::TotalDofs,
        2 | 3 => Question::BlockRange(match rng.below(8) {
            0 => rng.pick(&FAR),
            _ => rng.below(blocks + 2) as u64,
        }),
        4 | 5 => Question::Locate(random_dof(rng, layout)),
        6 => {
            let sides = near(total(layout) as usize);
            let (nrows, ncols) = sides[rng.below(2) * rng.below(sides.len())];
            Question::ValidateSquareMatrixSize { nrows, ncols }
        }
        _ => Question::FieldMask {
            field_id: match layout.blocks.fields.as_slice() {
                [] => 0,
                fields if rng.once_in(5) => rng.pick(fields) ^ 1 << rng.below(32),
                fields => rng.pick(fields),
            },
            out: random_mask_room(rng, layout),
        },
    }
}

/// A node: at an offset, one before or after it, anywhere, or far away.
fn random_dof(rng: &mut Rng, layout: &Layout) -> u64 {
    match (rng.below(6), layout.offsets.as_slice()) {
        (0, _) | (_, []) => rng.pick(&FAR),
        (1, _) => rng.below(total(layout).saturating_add(2) as usize) as u64,
        (_, offsets) => {
            let step = rng.pick(&[0, 0, 1, u64::MAX]);
            rng.pick(offsets).wrapping_add(step)
        }
    }
}

/// A list of thousands of words has one content throughout, to save time.
fn random_mask_room(rng: &mut Rng, layout: &Layout) -> Vec<u64> {
    match mask_words(layout) {
        words @ ..=64 => rng.room(words),
        words => vec![rng.word(); words - rng.below(2)],
    }
}
