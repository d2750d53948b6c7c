//! Layouts.

use hybit_matrix::{DofBlock, DofEntityKind, FieldAwareDofLayout};

use super::Answered::U64;
use super::{Case, Compared, demand, numbers};
use crate::answer::Answer;
use crate::groups::layout::{Blocks, Call, Layout, Question};

pub fn compare(call: &Call, case: &Case) -> Compared {
    match call {
        Call::KindOf(code) => {
            let kind = case.accepted(DofEntityKind::from_code(*code))?;
            case.told(Answer::told(kind as u64), &[])
        }
        Call::New { blocks, .. } => new(blocks, case),
        Call::Asked(layout, question) => asked(layout, question, case),
    }
}

/// From the four lists and, where these are blocks, from blocks.
fn new(blocks: &Blocks, case: &Case) -> Compared {
    let Blocks {
        kinds,
        ids,
        fields,
        components,
    } = blocks.clone();
    let made = FieldAwareDofLayout::from_lists(kinds, ids, fields, components);
    if let Some(list) = listed(blocks) {
        let same = FieldAwareDofLayout::new(list) == made;
        demand(same, "the layout of blocks is not that of their lists")?;
    }
    let layout = case.accepted(made)?;
    let told = Answer::told(layout.total_dofs());
    case.told(told, &[U64(layout.offsets())])
}

fn listed(blocks: &Blocks) -> Option<Vec<DofBlock>> {
    if blocks.right_lists() != 3 {
        return None;
    }
    let block = |place: usize| {
        Some(DofBlock {
            entity_kind: DofEntityKind::from_code(blocks.kinds[place].into()).ok()?,
            entity_id: blocks.ids[place],
            field_id: blocks.fields[place],
            components: blocks.components[place],
        })
    };
    (0..blocks.kinds.len()).map(block).collect()
}

fn asked(layout: &Layout, question: &Question, case: &Case) -> Compared {
    let layout = case.layout(layout)?;
    let answer = match question {
        Question::Check => Answer::done(),
        Question::TotalDofs => Answer::told(layout.total_dofs()),
        Question::BlockRange(index) => match layout.block_range(*index as usize) {
            Some(range) => Answer::told_all(&[range.start, range.end]),
            None => Answer::none(),
        },
        Question::Locate(dof) => match layout.locate(*dof) {
            Some(address) => numbers(&[address.block_index, address.component as usize]),
            None => Answer::none(),
        },
        Question::ValidateSquareMatrixSize { nrows, ncols } => {
            case.accepted(layout.validate_square_matrix_size(*nrows, *ncols))?;
            Answer::done()
        }
        Question::FieldMask { field_id, .. } => {
            let mask = case.accepted(layout.field_mask(*field_id))?;
            return case.told(numbers(&[mask.len()]), &[U64(mask.words())]);
        }
    };
    case.told(answer, &[])
}
