//! The port's answers.

use super::{BothLent, Call, Lent, Operation, Question, Row, Side, Topology};
use crate::answer::Answer;
use crate::groups::csr32::Matrix;
use crate::port::port;

/// Lends a matrix, then what else the function takes.
macro_rules! on_matrix {
    ($function:ident, $matrix:ident, $($more:tt)*) => {
        port!($function(
            $matrix.nrows,
            $matrix.ncols,
            [$matrix.row_ptr],
            [$matrix.col_idx],
            [$matrix.values],
            $($more)*
        ))
        .into()
    };
}

/// Lends one side.
macro_rules! on_side {
    ($function:ident, $side:ident) => {
        port!($function(
            $side.nrows,
            $side.ncols,
            [$side.row_word_ptr],
            [$side.word_indices],
            [$side.masks],
            $side.structural_nnz
        ))
        .into()
    };
}

/// Lends two sides, then what else the function takes.
macro_rules! on_two_sides {
    ($function:ident, $first:expr, $second:expr $(, $($more:tt)*)?) => {
        port!($function(
            $first.nrows,
            $first.ncols,
            [$first.row_word_ptr],
            [$first.word_indices],
            [$first.masks],
            $first.structural_nnz,
            $second.nrows,
            $second.ncols,
            [$second.row_word_ptr],
            [$second.word_indices],
            [$second.masks],
            $second.structural_nnz
            $(, $($more)*)?
        ))
        .into()
    };
}

pub fn answer(call: &mut Call) -> Answer {
    match call {
        Call::SideValidate(side) => on_side!(hybit_topology_validate, side),
        Call::SideStats(side) => on_side!(hybit_topology_stats, side),
        Call::SideFromCsr32(matrix, out) => on_matrix!(
            hybit_topology_from_csr32,
            matrix,
            [out.row_word_ptr],
            [out.word_indices],
            [out.masks]
        ),
        Call::Combine(operation, a, b, out) => combine(*operation, a, b, out),
        Call::Validate(Topology { rows, columns }) => {
            on_two_sides!(hybit_dual_topology_validate, rows, columns)
        }
        Call::Stats(Topology { rows, columns }) => {
            on_two_sides!(hybit_dual_topology_stats, rows, columns)
        }
        Call::FromCsr32(matrix, out) => from_csr32(matrix, out),
        Call::OfRow(topology, row, question) => of_row(topology, *row, *question),
    }
}

fn combine(operation: Operation, a: &mut Side, b: &mut Side, out: &mut Lent) -> Answer {
    macro_rules! combined {
        ($function:ident) => {
            on_two_sides!(
                $function,
                a,
                b,
                [out.row_word_ptr],
                [out.word_indices],
                [out.masks]
            )
        };
    }
    match operation {
        Operation::Intersection => combined!(hybit_topology_intersection),
        Operation::Union => combined!(hybit_topology_union),
        Operation::AndNot => combined!(hybit_topology_and_not),
        Operation::Xor => combined!(hybit_topology_xor),
    }
}

fn from_csr32(matrix: &mut Matrix, out: &mut BothLent) -> Answer {
    on_matrix!(
        hybit_dual_topology_from_csr32,
        matrix,
        [out.rows.row_word_ptr],
        [out.rows.word_indices],
        [out.rows.masks],
        [out.columns.row_word_ptr],
        [out.columns.word_indices],
        [out.columns.masks],
        [out.starts],
        [out.order]
    )
}

fn of_row(topology: &mut Topology, row: Row, question: Question) -> Answer {
    let Topology { rows, columns } = topology;
    macro_rules! asked {
        ($function:ident $(, $more:expr)?) => {
            on_two_sides!($function, rows, columns, row.columns, row.number $(, $more)?)
        };
    }
    match question {
        Question::Words => asked!(hybit_row_words),
        Question::Popcount => asked!(hybit_row_popcount),
        Question::Contains(col) => asked!(hybit_row_contains, col),
        Question::Rank(col) => asked!(hybit_row_rank, col),
        Question::Select(ordinal) => asked!(hybit_row_select, ordinal),
        Question::Word(k) => asked!(hybit_row_word, k),
    }
}
