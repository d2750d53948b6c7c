//! The port's answers.

use super::{Call, Layout, Question};
use crate::answer::Answer;
use crate::port::port;

pub fn answer(call: &mut Call) -> Answer {
    match call {
        Call::KindOf(code) => port!(hybit_kind_of(*code)).into(),
        Call::New { blocks, out } => port!(hybit_layout_new(
            [blocks.kinds],
            [blocks.ids],
            [blocks.fields],
            [blocks.components],
            [out]
        ))
        .into(),
        Call::Asked(layout, question) => asked(layout, question),
    }
}

/// Lends the five lists of a layout, then what else the function takes.
macro_rules! on_layout {
    ($function:ident, $layout:ident $(, $($more:tt)*)?) => {
        port!($function(
            [$layout.blocks.kinds],
            [$layout.blocks.ids],
            [$layout.blocks.fields],
            [$layout.blocks.components],
            [$layout.offsets]
            $(, $($more)*)?
        ))
        .into()
    };
}

fn asked(layout: &mut Layout, question: &mut Question) -> Answer {
    match question {
        Question::Check => on_layout!(hybit_layout_check, layout),
        Question::TotalDofs => on_layout!(hybit_layout_total_dofs, layout),
        Question::BlockRange(index) => on_layout!(hybit_layout_block_range, layout, *index),
        Question::Locate(dof) => on_layout!(hybit_layout_locate, layout, *dof),
        Question::ValidateSquareMatrixSize { nrows, ncols } => on_layout!(
            hybit_layout_validate_square_matrix_size,
            layout,
            *nrows,
            *ncols
        ),
        Question::FieldMask { field_id, out } => {
            on_layout!(hybit_layout_field_mask, layout, *field_id, [out])
        }
    }
}
