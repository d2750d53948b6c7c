//! Patterns, plans, gathers.

use hybit_matrix::{
    AbtmDualTopology, AbtmLocalNumericPlan, AbtmLocalNumericPlanStats, AbtmLocalSubmatrixPattern,
    AbtmLocalSubmatrixPatternStats, DofMask, extract_local_submatrix_pattern, gather_values,
    prepare_local_numeric_plan,
};

use super::Answered::{self, F64, Nothing, U32};
use super::{Case, Compared, demand, numbers, runs};
use crate::answer::Answer;
use crate::groups::local::{Call, Gather};

pub fn compare(call: &Call, case: &Case) -> Compared {
    match call {
        Call::Pattern {
            topology, region, ..
        } => {
            let (topology, region) = (case.topology(topology)?, case.mask(region)?);
            let found = extract_local_submatrix_pattern(&topology, &region);
            let found = case.accepted(found)?;
            case.told(of_pattern(found.stats()), &pattern_lists(&found))
        }
        Call::Plan {
            topology,
            matrix,
            region,
            ..
        } => {
            let matrix = case.matrix(matrix)?;
            let (topology, region) = (case.topology(topology)?, case.mask(region)?);
            let plan = prepare_local_numeric_plan(&topology, &matrix, &region);
            let plan = case.accepted(plan)?;
            same_pattern(&plan, &topology, &region)?;
            case.told(numbers(&of_plan(plan.stats())), &plan_lists(&plan))
        }
        Call::Gather(gather) => gathered(gather, case),
        Call::Run(run) => runs::compare(run, case),
    }
}

fn of_pattern(stats: AbtmLocalSubmatrixPatternStats) -> Answer {
    let [ratio, average] = [
        stats.structural_pruning_ratio(),
        stats.average_local_row_nnz(),
    ];
    let mut answer = numbers(&counts_of_pattern(stats));
    answer.values[8..10].copy_from_slice(&[ratio.to_bits(), average.to_bits()]);
    answer
}

pub fn counts_of_pattern(stats: AbtmLocalSubmatrixPatternStats) -> [usize; 8] {
    [
        stats.global_nodes,
        stats.local_nodes,
        stats.local_nnz,
        stats.topology_words_visited,
        stats.candidate_neighbor_bits,
        stats.kept_neighbor_bits,
        stats.mapping_scratch_bytes,
        stats.pattern_bytes,
    ]
}

pub fn of_plan(stats: AbtmLocalNumericPlanStats) -> [usize; 6] {
    [
        stats.local_nodes,
        stats.local_nnz,
        stats.source_terms,
        stats.duplicate_source_terms,
        usize::from(stats.direct_source_map),
        stats.plan_bytes,
    ]
}

fn pattern_lists(pattern: &AbtmLocalSubmatrixPattern) -> [Answered<'_>; 3] {
    [
        U32(pattern.global_nodes()),
        U32(pattern.row_ptr()),
        U32(pattern.col_idx()),
    ]
}

pub fn plan_lists(plan: &AbtmLocalNumericPlan) -> [Answered<'_>; 5] {
    let [nodes, row_ptr, col_idx] = pattern_lists(plan.pattern());
    let (source_ptr, sources) = (plan.source_ptr(), plan.source_indices());
    [nodes, row_ptr, col_idx, U32(source_ptr), U32(sources)]
}

/// The port's plan does not answer its pattern's statistics: they must be those
/// of the pattern that the port extracts.
fn same_pattern(
    plan: &AbtmLocalNumericPlan,
    topology: &AbtmDualTopology,
    region: &DofMask,
) -> Compared {
    let pattern = extract_local_submatrix_pattern(topology, region);
    let same = pattern.is_ok_and(|pattern| pattern == *plan.pattern());
    demand(same, "a plan's pattern is not the region's")
}

fn gathered(gather: &Gather, case: &Case) -> Compared {
    let values = case.accepted(gather_values(
        &gather.source_ptr,
        &gather.source_indices,
        gather.source_value_len,
        &gather.values,
    ))?;
    let lists = [Nothing, Nothing, Nothing, Nothing, Nothing, F64(&values)];
    case.told(numbers(&[values.len()]), &lists)
}
