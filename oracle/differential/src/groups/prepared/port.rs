//! The port's answers.

use super::{Call, Owners, Prepare};
use crate::answer::Answer;
use crate::groups::GroupCall;
use crate::groups::local::{Call as LocalCall, Gather};
use crate::port::port;

/// Lends a matrix and its layout, then what else the function takes.
macro_rules! on_matrix_and_layout {
    ($function:ident, $call:expr, $($more:tt)*) => {
        port!($function(
            $call.matrix.nrows,
            $call.matrix.ncols,
            [$call.matrix.row_ptr],
            [$call.matrix.col_idx],
            [$call.matrix.values],
            [$call.layout.blocks.kinds],
            [$call.layout.blocks.ids],
            [$call.layout.blocks.fields],
            [$call.layout.blocks.components],
            [$call.layout.offsets],
            $($more)*
        ))
        .into()
    };
}

pub fn answer(call: &mut Call) -> Answer {
    match call {
        Call::Prepare(call) => prepare(call),
        Call::Owners(call) => owners(call),
    }
}

fn prepare(call: &mut Prepare) -> Answer {
    let answer: Answer = on_matrix_and_layout!(
        hybit_prepare_region,
        call,
        call.seeds.len,
        [call.seeds.words],
        call.hops,
        [call.lent.sides.rows.row_word_ptr],
        [call.lent.sides.rows.word_indices],
        [call.lent.sides.rows.masks],
        [call.lent.sides.columns.row_word_ptr],
        [call.lent.sides.columns.word_indices],
        [call.lent.sides.columns.masks],
        [call.lent.sides.starts],
        [call.lent.sides.order],
        [call.lent.masks.region],
        [call.lent.masks.frontier],
        [call.lent.masks.scratch],
        [call.lent.plan.pattern.global_nodes],
        [call.lent.plan.pattern.row_ptr],
        [call.lent.plan.pattern.col_idx],
        [call.lent.plan.source_ptr],
        [call.lent.plan.source_indices]
    );
    if answer.number == 0 {
        gather(call, answer);
    }
    answer
}

/// Where an answer has the pairs of the plan and its sources.
const LOCAL_NNZ: usize = 27;
const SOURCE_TERMS: usize = 28;

/// On the front of the lists that the port has left, as long as it says.
fn gather(call: &mut Prepare, answer: Answer) {
    let [pairs, sources] = [LOCAL_NNZ, SOURCE_TERMS].map(|at| answer.values[at] as usize);
    let mut gather = LocalCall::Gather(Gather {
        source_ptr: front(&call.lent.plan.source_ptr, pairs.saturating_add(1)),
        source_indices: front(&call.lent.plan.source_indices, sources),
        source_value_len: call.matrix.values.len(),
        values: call.matrix.values.clone(),
        out: call.gathered.iter().copied().map(f64::from_bits).collect(),
    });
    let told = gather.ask_port();
    call.gather_told = vec![u64::from(told.number), told.values[0]];
    if let LocalCall::Gather(Gather { out, .. }) = gather {
        call.gathered = out.into_iter().map(f64::to_bits).collect();
    }
}

/// The first so many, or all if there are fewer.
fn front(list: &[u32], count: usize) -> Vec<u32> {
    list[..count.min(list.len())].to_vec()
}

fn owners(call: &mut Owners) -> Answer {
    on_matrix_and_layout!(
        hybit_validate_block_owners,
        call,
        [call.dof_owners],
        call.ranks,
        [call.out]
    )
}
