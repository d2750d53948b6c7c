//! What a call on a local system is expected to answer.
//!
//! As for growths, the Rust is first asked with a mask of the same length
//! without words: its own checks come before those that 01 adds of a mask's
//! words. A plan to gather with is made by hand (hybit_open).

use hybit_open::{
    AbtmLocalNumericPlan, AbtmLocalNumericPlanStats, AbtmLocalSubmatrixPattern,
    AbtmLocalSubmatrixPatternStats, Csr32Matrix, extract_local_submatrix_pattern,
    prepare_local_numeric_plan,
};

use super::{Call, Gather, PatternLent, PlanLent};
use crate::answer::Answer;
use crate::expected::{ENTRY_LIMIT, refusal, write};
use crate::groups::csr32::{Matrix, accepted};
use crate::groups::growth::without_words;
use crate::groups::mask::{Mask, check_words};
use crate::groups::topology::{Topology, accepted_topology};

pub fn answer(call: &mut Call) -> Result<Answer, Answer> {
    match call {
        Call::Pattern {
            topology,
            region,
            lent,
        } => pattern(topology, region, lent),
        Call::Plan {
            topology,
            matrix,
            region,
            lent,
        } => plan(topology, matrix, region, lent),
        Call::Gather(call) => gather(call),
        Call::Run(run) => Ok(run.expect()),
    }
}

/// "Plain growth and pattern: topology, 10, mask."
fn pattern(topology: &Topology, region: &Mask, lent: &mut PatternLent) -> Result<Answer, Answer> {
    let topology = accepted_topology(topology)?;
    extract_local_submatrix_pattern(&topology, &without_words(region)).map_err(refusal)?;
    check_words(region)?;
    let found = extract_local_submatrix_pattern(&topology, &region.open()).map_err(refusal)?;
    lent.check_room(&found)?;
    lent.take(&found)?;
    let stats = found.stats();
    Ok(Answer::told_all(&[
        stats.global_nodes as u64,
        stats.local_nodes as u64,
        stats.local_nnz as u64,
        stats.topology_words_visited as u64,
        stats.candidate_neighbor_bits as u64,
        stats.kept_neighbor_bits as u64,
        stats.mapping_scratch_bytes as u64,
        stats.pattern_bytes as u64,
        stats.structural_pruning_ratio().to_bits(),
        stats.average_local_row_nnz().to_bits(),
    ]))
}

/// "Numeric plan: matrix, topology, 22, 10, mask, then by local row 23, 24."
fn plan(
    topology: &Topology,
    matrix: &Matrix,
    region: &Mask,
    lent: &mut PlanLent,
) -> Result<Answer, Answer> {
    let found = prepared(topology, matrix, region)?;
    lent.check_room(&found)?;
    lent.pattern.take(&found.pattern)?;
    write(&found.source_ptr, &mut lent.source_ptr)?;
    write(&found.source_indices, &mut lent.source_indices)?;
    let stats = found.stats();
    Ok(Answer::told_all(&[
        stats.local_nodes as u64,
        stats.local_nnz as u64,
        stats.source_terms as u64,
        stats.duplicate_source_terms as u64,
        u64::from(stats.direct_source_map),
        stats.plan_bytes as u64,
    ]))
}

/// The Rust's plan, or the refusal.
pub fn prepared(
    topology: &Topology,
    matrix: &Matrix,
    region: &Mask,
) -> Result<AbtmLocalNumericPlan, Answer> {
    accepted(matrix)?;
    let matrix = opened(matrix);
    let topology = accepted_topology(topology)?;
    prepare_local_numeric_plan(&topology, &matrix, &without_words(region)).map_err(refusal)?;
    check_words(region)?;
    prepare_local_numeric_plan(&topology, &matrix, &region.open()).map_err(refusal)
}

/// "Gather: 1, 26, 11, 8."
fn gather(call: &mut Gather) -> Result<Answer, Answer> {
    if call.source_indices.len() > ENTRY_LIMIT || call.values.len() > ENTRY_LIMIT {
        return Err(Answer::refused(1));
    }
    if !is_plan(call) {
        return Err(Answer::refused(26));
    }
    let gathered = hand_made(call)
        .gather_values(&call.values)
        .map_err(refusal)?;
    if call.values.iter().any(|value| !value.is_finite()) {
        return Err(Answer::refused(8));
    }
    write(&gathered, &mut call.out)?;
    Ok(Answer::told(gathered.len() as u64))
}

/// Added refusal 26: "a plan's pointers are empty, do not start at 0, fall, or
/// do not end at the source count, or a source is not below the value count".
fn is_plan(call: &Gather) -> bool {
    let pointers = &call.source_ptr;
    let sources = call.source_indices.len();
    pointers.first() == Some(&0)
        && pointers.windows(2).all(|ends| ends[0] <= ends[1])
        && pointers
            .last()
            .is_some_and(|&last| last as usize == sources)
        && call
            .source_indices
            .iter()
            .all(|&source| (source as usize) < call.source_value_len)
}

/// The Rust's plan of these lists; of its pattern only the number of pairs
/// counts. "It is direct if every pair has one source, found from the
/// pointers."
fn hand_made(call: &Gather) -> AbtmLocalNumericPlan {
    let mut ends = call.source_ptr.windows(2);
    AbtmLocalNumericPlan {
        pattern: AbtmLocalSubmatrixPattern {
            global_nodes: vec![],
            row_ptr: vec![],
            col_idx: vec![0; call.source_ptr.len() - 1],
            stats: AbtmLocalSubmatrixPatternStats::default(),
        },
        source_ptr: call.source_ptr.clone(),
        source_indices: call.source_indices.clone(),
        source_value_len: call.source_value_len,
        direct_source_map: ends.all(|ends| ends[1] - ends[0] == 1),
        stats: AbtmLocalNumericPlanStats::default(),
    }
}

/// The type that goes with hand-made topologies and masks.
pub fn opened(matrix: &Matrix) -> Csr32Matrix {
    Csr32Matrix {
        nrows: matrix.nrows,
        ncols: matrix.ncols,
        row_ptr: matrix.row_ptr.clone(),
        col_idx: matrix.col_idx.clone(),
        values: matrix.values.clone(),
    }
}

impl PatternLent {
    /// Added refusal 25.
    fn check_room(&self, found: &AbtmLocalSubmatrixPattern) -> Result<(), Answer> {
        if self.global_nodes.len() < found.global_nodes.len()
            || self.row_ptr.len() < found.row_ptr.len()
            || self.col_idx.len() < found.col_idx.len()
        {
            return Err(Answer::refused(25));
        }
        Ok(())
    }

    fn take(&mut self, found: &AbtmLocalSubmatrixPattern) -> Result<(), Answer> {
        write(&found.global_nodes, &mut self.global_nodes)?;
        write(&found.row_ptr, &mut self.row_ptr)?;
        write(&found.col_idx, &mut self.col_idx)
    }
}

impl PlanLent {
    fn check_room(&self, found: &AbtmLocalNumericPlan) -> Result<(), Answer> {
        if self.source_ptr.len() < found.source_ptr.len()
            || self.source_indices.len() < found.source_indices.len()
        {
            return Err(Answer::refused(25));
        }
        self.pattern.check_room(&found.pattern)
    }
}
