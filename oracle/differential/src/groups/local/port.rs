//! The port's answers.

use super::Call;
use crate::answer::Answer;
use crate::port::{on_topology, port};

pub fn answer(call: &mut Call) -> Answer {
    match call {
        Call::Pattern {
            topology,
            region,
            lent,
        } => on_topology!(
            hybit_extract_local_submatrix_pattern,
            topology,
            region.len,
            [region.words],
            [lent.global_nodes],
            [lent.row_ptr],
            [lent.col_idx]
        ),
        Call::Plan {
            topology,
            matrix,
            region,
            lent,
        } => on_topology!(
            hybit_prepare_local_numeric_plan,
            topology,
            matrix.nrows,
            matrix.ncols,
            [matrix.row_ptr],
            [matrix.col_idx],
            [matrix.values],
            region.len,
            [region.words],
            [lent.pattern.global_nodes],
            [lent.pattern.row_ptr],
            [lent.pattern.col_idx],
            [lent.source_ptr],
            [lent.source_indices]
        ),
        Call::Gather(gather) => port!(hybit_gather_values(
            [gather.source_ptr],
            [gather.source_indices],
            gather.source_value_len,
            [gather.values],
            [gather.out]
        ))
        .into(),
        Call::Run(run) => run.ask_port(),
    }
}
