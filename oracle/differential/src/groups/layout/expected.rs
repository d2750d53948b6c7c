//! What a call on a layout is expected to answer.
//!
//! The Rust refuses at its first faulty block, and so does 01, which adds 17
//! before the Rust's checks of a block and 1 after them. So the Rust is asked
//! about the blocks up to the first added refusal, and that refusal counts if
//! the Rust accepts these.

use hybit_original::{DofBlock, DofEntityKind, FieldAwareDofLayout};

use super::{Blocks, Call, Layout, Question};
use crate::answer::Answer;
use crate::expected::{SIDE_LIMIT, refusal, write};

pub fn answer(call: &mut Call) -> Result<Answer, Answer> {
    match call {
        Call::KindOf(code) => Ok(Answer::told(kind(*code)? as u64)),
        Call::New { blocks, out } => new(blocks, out),
        Call::Asked(layout, question) => asked(layout, question),
    }
}

/// 17 stands as added in 01, since a kind is a byte there; the Rust refuses
/// the same codes where it makes a kind of one.
fn kind(code: u32) -> Result<DofEntityKind, Answer> {
    DofEntityKind::from_code(code).map_err(refusal)
}

fn new(blocks: &Blocks, out: &mut [u64]) -> Result<Answer, Answer> {
    let layout = accepted_blocks(blocks)?;
    write(&offsets(&layout), out)?;
    Ok(Answer::told(layout.total_dofs()))
}

fn asked(layout: &Layout, question: &mut Question) -> Result<Answer, Answer> {
    let rust = accepted_layout(layout)?;
    match question {
        Question::Check => Ok(Answer::done()),
        Question::TotalDofs => Ok(Answer::told(rust.total_dofs())),
        Question::BlockRange(index) => Ok(match rust.block_range(*index as usize) {
            Some(range) => Answer::told_all(&[range.start, range.end]),
            None => Answer::none(),
        }),
        Question::Locate(dof) => Ok(match rust.locate(*dof) {
            Some(address) => {
                Answer::told_all(&[address.block_index as u64, u64::from(address.component)])
            }
            None => Answer::none(),
        }),
        Question::ValidateSquareMatrixSize { nrows, ncols } => {
            rust.validate_square_matrix_size(*nrows, *ncols)
                .map_err(refusal)?;
            Ok(Answer::done())
        }
        Question::FieldMask { field_id, out } => {
            let mask = rust.field_mask(*field_id).map_err(refusal)?;
            write(mask.words(), out)?;
            Ok(Answer::told(mask.len() as u64))
        }
    }
}

/// Added refusal 26: "a layout's offset list, length included, is not its
/// running totals".
pub fn accepted_layout(layout: &Layout) -> Result<FieldAwareDofLayout, Answer> {
    let rust = accepted_blocks(&layout.blocks)?;
    if layout.offsets != offsets(&rust) {
        return Err(Answer::refused(26));
    }
    Ok(rust)
}

/// "14, 11, then by block 17, 15, 16, 1".
fn accepted_blocks(blocks: &Blocks) -> Result<FieldAwareDofLayout, Answer> {
    if blocks.kinds.is_empty() {
        return FieldAwareDofLayout::new(vec![]).map_err(refusal);
    }
    check_lengths(blocks)?;
    let (before, added) = before_added(blocks);
    match added {
        // The Rust would refuse an empty list by 14.
        Some(added) if before.is_empty() => Err(added),
        Some(added) => {
            FieldAwareDofLayout::new(before).map_err(refusal)?;
            Err(added)
        }
        None => FieldAwareDofLayout::new(before).map_err(refusal),
    }
}

/// Added: 11 of a block list.
fn check_lengths(blocks: &Blocks) -> Result<(), Answer> {
    let needed = blocks.kinds.len();
    for actual in [
        blocks.ids.len(),
        blocks.fields.len(),
        blocks.components.len(),
    ] {
        if actual != needed {
            return Err(Answer::wrong_length(needed, actual));
        }
    }
    Ok(())
}

/// The blocks that come to the Rust's own checks before the first added
/// refusal does, and that refusal.
fn before_added(blocks: &Blocks) -> (Vec<DofBlock>, Option<Answer>) {
    let mut before = vec![];
    let mut total = 0;
    for (index, &code) in blocks.kinds.iter().enumerate() {
        let entity_kind = match kind(u32::from(code)) {
            Ok(kind) => kind,
            Err(unknown) => return (before, Some(unknown)),
        };
        let components = blocks.components[index];
        before.push(DofBlock {
            entity_kind,
            entity_id: blocks.ids[index],
            field_id: blocks.fields[index],
            components,
        });
        total += u64::from(components);
        if total > SIDE_LIMIT as u64 {
            return (before, Some(Answer::refused(1)));
        }
    }
    (before, None)
}

/// The Rust keeps its offsets to itself; they are the starts of its blocks,
/// and its total.
fn offsets(layout: &FieldAwareDofLayout) -> Vec<u64> {
    (0..layout.blocks().len())
        .filter_map(|index| layout.block_range(index))
        .map(|range| range.start)
        .chain([layout.total_dofs()])
        .collect()
}
