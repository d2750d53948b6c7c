//! The calls on one layout.

use super::{Call, Layout, Question};
use crate::expected::SIDE_LIMIT;
use crate::groups::mask::words_needed;
use crate::rng::Rng;

/// Numbers far past every layout.
pub const FAR: [u64; 4] = [1 << 32, (1 << 32) + 1, 1 << 63, u64::MAX];

/// Every block and node, the first past the end and far ones; every field that
/// occurs, and others; sides and rooms near the right ones.
pub fn all(layout: &Layout, run: &mut dyn FnMut(Call)) {
    let blocks = layout.blocks.kinds.len() as u64;
    new(layout, run);
    ask(layout, Question::Check, run);
    ask(layout, Question::TotalDofs, run);
    for index in (0..=blocks).chain(FAR) {
        ask(layout, Question::BlockRange(index), run);
    }
    for dof in (0..=total(layout)).chain(FAR) {
        ask(layout, Question::Locate(dof), run);
    }
    sizes(layout, run);
    let mut fields = layout.blocks.fields.clone();
    fields.sort();
    fields.dedup();
    masks(layout, &fields, run);
}

/// The same for a large layout, with some nodes, blocks and fields only.
pub fn some(rng: &mut Rng, layout: &Layout, run: &mut dyn FnMut(Call)) {
    let blocks = layout.blocks.kinds.len();
    new(layout, run);
    ask(layout, Question::Check, run);
    ask(layout, Question::TotalDofs, run);
    let inside = rng.below(blocks);
    for index in [0, inside, blocks - 1, blocks] {
        ask(layout, Question::BlockRange(index as u64), run);
    }
    let start = layout.offsets[inside];
    let total = total(layout);
    for dof in [0, start.saturating_sub(1), start, total - 1, total] {
        ask(layout, Question::Locate(dof), run);
    }
    sizes(layout, run);
    let field = layout.blocks.fields[inside];
    masks(layout, &[field], run);
}

/// One call of each function.
pub fn one_each(layout: &Layout, run: &mut dyn FnMut(Call)) {
    for turn in 0..7 {
        one(layout, turn, run);
    }
}

/// One call, of another function at each turn.
pub fn one(layout: &Layout, turn: usize, run: &mut dyn FnMut(Call)) {
    let total = total(layout);
    let side = total as usize;
    let question = match turn % 7 {
        0 => Question::Check,
        1 => Question::TotalDofs,
        2 => Question::BlockRange(0),
        3 => Question::Locate(total / 2),
        4 => Question::ValidateSquareMatrixSize {
            nrows: side,
            ncols: side,
        },
        5 => return mask(layout, 0, run),
        _ => {
            let blocks = layout.blocks.clone();
            let out = vec![77; blocks.kinds.len() + 1];
            return run(Call::New { blocks, out });
        }
    };
    ask(layout, question, run);
}

/// A field's mask over a list of just its words.
pub fn mask(layout: &Layout, field_id: u32, run: &mut dyn FnMut(Call)) {
    let out = vec![77; mask_words(layout)];
    ask(layout, Question::FieldMask { field_id, out }, run);
}

pub fn ask(layout: &Layout, question: Question, run: &mut dyn FnMut(Call)) {
    run(Call::Asked(layout.clone(), question));
}

/// Room for none, one short, exactly enough, and more.
fn new(layout: &Layout, run: &mut dyn FnMut(Call)) {
    let needed = layout.blocks.kinds.len() + 1;
    for room in [0, needed - 1, needed, needed + 1, needed + 5] {
        run(Call::New {
            blocks: layout.blocks.clone(),
            out: vec![77; room],
        });
    }
}

fn sizes(layout: &Layout, run: &mut dyn FnMut(Call)) {
    for (nrows, ncols) in near(total(layout) as usize) {
        let question = Question::ValidateSquareMatrixSize { nrows, ncols };
        ask(layout, question, run);
    }
}

/// Pairs of sides: both right, one or both wrong.
pub fn near(side: usize) -> [(usize, usize); 9] {
    let far = side.wrapping_add(1 << 32);
    [
        (side, side),
        (side.wrapping_add(1), side),
        (side, side.wrapping_add(1)),
        (side.wrapping_sub(1), side),
        (side, side.wrapping_sub(1)),
        (side.wrapping_add(1), side.wrapping_sub(1)),
        (far, side),
        (side, far),
        (0, usize::MAX),
    ]
}

/// These fields, and the first with one of its bits changed.
fn masks(layout: &Layout, fields: &[u32], run: &mut dyn FnMut(Call)) {
    let needed = mask_words(layout);
    let other = [fields[0] ^ 1 << 8, fields[0] ^ 1 << 31];
    for &field_id in fields.iter().chain(&other) {
        for room in [needed.saturating_sub(1), needed, needed + 2] {
            let out = vec![77; room];
            ask(layout, Question::FieldMask { field_id, out }, run);
        }
    }
}

/// The words of a mask over the layout; of one over the limit only some, since
/// the call is refused before it writes.
pub fn mask_words(layout: &Layout) -> usize {
    words_needed((total(layout) as usize).min(SIDE_LIMIT + 1))
}

/// The last offset, right or wrong.
pub fn total(layout: &Layout) -> u64 {
    layout.offsets.last().copied().unwrap_or_default()
}
