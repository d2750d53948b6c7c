//! The local system of a region: its pairs, where their values come from, and the values.

use crate::lend::ask;
use crate::topology::ratio;
use crate::{AbtmDualTopology, Csr32Matrix, DofMask, Refusal};

/// Counts and bytes of a pattern, by the original's formulas.
#[derive(Clone, Copy, Debug, Default, PartialEq, Eq)]
pub struct AbtmLocalSubmatrixPatternStats {
    pub global_nodes: usize,
    pub local_nodes: usize,
    pub local_nnz: usize,
    pub topology_words_visited: usize,
    pub candidate_neighbor_bits: usize,
    pub kept_neighbor_bits: usize,
    pub mapping_scratch_bytes: usize,
    pub pattern_bytes: usize,
}

impl AbtmLocalSubmatrixPatternStats {
    pub fn structural_pruning_ratio(self) -> f64 {
        if self.candidate_neighbor_bits == 0 {
            return 0.0;
        }
        1.0 - self.kept_neighbor_bits as f64 / self.candidate_neighbor_bits as f64
    }

    pub fn average_local_row_nnz(self) -> f64 {
        ratio(self.local_nnz as f64, self.local_nodes as f64)
    }
}

/// The members of a region in rising order, and the pairs with both ends inside, numbered by member.
#[derive(Clone, Debug, PartialEq, Eq)]
pub struct AbtmLocalSubmatrixPattern {
    pub(crate) global_nodes: Vec<u32>,
    pub(crate) row_ptr: Vec<u32>,
    pub(crate) col_idx: Vec<u32>,
    pub(crate) stats: AbtmLocalSubmatrixPatternStats,
}

impl AbtmLocalSubmatrixPattern {
    /// The members.
    pub fn global_nodes(&self) -> &[u32] {
        &self.global_nodes
    }

    pub fn row_ptr(&self) -> &[u32] {
        &self.row_ptr
    }

    pub fn col_idx(&self) -> &[u32] {
        &self.col_idx
    }

    pub fn nrows(&self) -> usize {
        self.global_nodes.len()
    }

    pub fn ncols(&self) -> usize {
        self.global_nodes.len()
    }

    pub fn nnz(&self) -> usize {
        self.col_idx.len()
    }

    pub fn stats(&self) -> AbtmLocalSubmatrixPatternStats {
        self.stats
    }

    /// Lists for so many members and at most so many pairs, before a call of the port writes them.
    pub(crate) fn room(members: usize, pairs: usize) -> Self {
        Self {
            global_nodes: vec![0; members],
            row_ptr: vec![0; members + 1],
            col_idx: vec![0; pairs],
            stats: AbtmLocalSubmatrixPatternStats::default(),
        }
    }

    /// The same once it is written.
    pub(crate) fn written(mut self, stats: AbtmLocalSubmatrixPatternStats) -> Self {
        self.global_nodes.truncate(stats.local_nodes);
        self.row_ptr.truncate(stats.local_nodes + 1);
        self.col_idx.truncate(stats.local_nnz);
        self.stats = stats;
        self
    }
}

/// The pairs of a region. Refused by 10, 11.
pub fn extract_local_submatrix_pattern(
    topology: &AbtmDualTopology,
    region: &DofMask,
) -> Result<AbtmLocalSubmatrixPattern, Refusal> {
    let members = region.indices();
    let (_, pairs) = rows_of(topology, &members);
    let mut pattern = AbtmLocalSubmatrixPattern::room(members.len(), pairs);
    let stats = ask!(hybit_extract_local_submatrix_pattern(
        topology topology,
        mask region,
        &mut pattern.global_nodes,
        &mut pattern.row_ptr,
        &mut pattern.col_idx
    ))?;
    Ok(pattern.written(AbtmLocalSubmatrixPatternStats {
        global_nodes: stats.global_nodes as usize,
        local_nodes: stats.local_nodes as usize,
        local_nnz: stats.local_nnz as usize,
        topology_words_visited: stats.topology_words_visited as usize,
        candidate_neighbor_bits: stats.candidate_neighbor_bits as usize,
        kept_neighbor_bits: stats.kept_neighbor_bits as usize,
        mapping_scratch_bytes: stats.mapping_scratch_bytes as usize,
        pattern_bytes: stats.pattern_bytes as usize,
    }))
}

/// How many words, and how many pairs, the rows of the members have: no more pairs can be inside. A member that is not
/// a row is passed over; its region is refused.
fn rows_of(topology: &AbtmDualTopology, members: &[usize]) -> (usize, usize) {
    let rows = members
        .iter()
        .filter_map(|&member| topology.row(member).ok());
    rows.fold((0, 0), |(words, pairs), row| {
        (words + row.nonempty_words(), pairs + row.popcount())
    })
}

/// Counts and bytes of a plan, by the original's formulas.
#[derive(Clone, Copy, Debug, Default, PartialEq, Eq)]
pub struct AbtmLocalNumericPlanStats {
    pub local_nodes: usize,
    pub local_nnz: usize,
    pub source_terms: usize,
    pub duplicate_source_terms: usize,
    pub direct_source_map: bool,
    pub plan_bytes: usize,
}

/// A pattern, and for each of its pairs the entries of the matrix that it is made of.
#[derive(Clone, Debug, PartialEq, Eq)]
pub struct AbtmLocalNumericPlan {
    pub(crate) pattern: AbtmLocalSubmatrixPattern,
    pub(crate) source_ptr: Vec<u32>,
    pub(crate) source_indices: Vec<u32>,
    pub(crate) source_value_len: usize,
    pub(crate) stats: AbtmLocalNumericPlanStats,
}

impl AbtmLocalNumericPlan {
    pub fn pattern(&self) -> &AbtmLocalSubmatrixPattern {
        &self.pattern
    }

    pub fn stats(&self) -> AbtmLocalNumericPlanStats {
        self.stats
    }

    /// Where the entries of each pair begin, then the number of entries.
    pub fn source_ptr(&self) -> &[u32] {
        &self.source_ptr
    }

    pub fn source_indices(&self) -> &[u32] {
        &self.source_indices
    }

    /// How many values the matrix has.
    pub fn source_value_len(&self) -> usize {
        self.source_value_len
    }

    /// The values of the pairs, from values in the order of the matrix that the plan was made of. Where every pair has
    /// one entry its bits are copied; otherwise each is a sum from 0.0 in stored order. Refused by 1, 11, 8.
    pub fn gather_values(&self, values: &[f64]) -> Result<Vec<f64>, Refusal> {
        gather_values(
            &self.source_ptr,
            &self.source_indices,
            self.source_value_len,
            values,
        )
    }

    /// Lists for at most so many sources.
    pub(crate) fn room(members: usize, entries: usize, source_value_len: usize) -> Self {
        Self {
            pattern: AbtmLocalSubmatrixPattern::room(members, entries),
            source_ptr: vec![0; entries + 1],
            source_indices: vec![0; entries],
            source_value_len,
            stats: AbtmLocalNumericPlanStats::default(),
        }
    }

    /// The same once it is written.
    pub(crate) fn written(
        mut self,
        pattern: AbtmLocalSubmatrixPatternStats,
        stats: AbtmLocalNumericPlanStats,
    ) -> Self {
        self.pattern = self.pattern.written(pattern);
        self.source_ptr.truncate(stats.local_nnz + 1);
        self.source_indices.truncate(stats.source_terms);
        self.stats = stats;
        self
    }
}

/// The plan of a region. Refused by 22, 10, 11, 23, 24.
///
/// The port's call on a plan does not answer its pattern's statistics: words visited and candidate bits are summed here
/// over the members' rows, and the rest follows from the plan's own counts.
pub fn prepare_local_numeric_plan(
    topology: &AbtmDualTopology,
    matrix: &Csr32Matrix,
    region: &DofMask,
) -> Result<AbtmLocalNumericPlan, Refusal> {
    let members = region.indices();
    let mut plan =
        AbtmLocalNumericPlan::room(members.len(), entries_of(matrix, &members), matrix.nnz());
    let AbtmLocalSubmatrixPattern {
        global_nodes,
        row_ptr,
        col_idx,
        ..
    } = &mut plan.pattern;
    let stats = ask!(hybit_prepare_local_numeric_plan(
        topology topology,
        matrix matrix,
        mask region,
        global_nodes,
        row_ptr,
        col_idx,
        &mut plan.source_ptr,
        &mut plan.source_indices
    ))?;
    let stats = AbtmLocalNumericPlanStats {
        local_nodes: stats.local_nodes as usize,
        local_nnz: stats.local_nnz as usize,
        source_terms: stats.source_terms as usize,
        duplicate_source_terms: stats.duplicate_source_terms as usize,
        direct_source_map: stats.direct_source_map,
        plan_bytes: stats.plan_bytes as usize,
    };
    Ok(plan.written(pattern_stats(topology, &members, &stats), stats))
}

fn pattern_stats(
    topology: &AbtmDualTopology,
    members: &[usize],
    plan: &AbtmLocalNumericPlanStats,
) -> AbtmLocalSubmatrixPatternStats {
    let (words, candidates) = rows_of(topology, members);
    AbtmLocalSubmatrixPatternStats {
        global_nodes: topology.nrows(),
        local_nodes: plan.local_nodes,
        local_nnz: plan.local_nnz,
        topology_words_visited: words,
        candidate_neighbor_bits: candidates,
        kept_neighbor_bits: plan.local_nnz,
        mapping_scratch_bytes: 4 * topology.nrows(),
        pattern_bytes: 4 * (2 * plan.local_nodes + 1 + plan.local_nnz),
    }
}

/// How many entries the rows of the members have: no more can be inside.
fn entries_of(matrix: &Csr32Matrix, members: &[usize]) -> usize {
    let rows = members
        .iter()
        .filter_map(|&member| matrix.row_ptr().get(member..member + 2));
    rows.map(|ends| (ends[1] - ends[0]) as usize).sum()
}

/// What `AbtmLocalNumericPlan::gather_values` answers, by the lists of a plan that was stored. Refused by 1, 26, 11, 8. In the original only the plan has this.
pub fn gather_values(
    source_ptr: &[u32],
    source_indices: &[u32],
    source_value_len: usize,
    values: &[f64],
) -> Result<Vec<f64>, Refusal> {
    let mut gathered = vec![0.0; source_ptr.len().saturating_sub(1)];
    ask!(hybit_gather_values(
        source_ptr,
        source_indices,
        source_value_len,
        values,
        &mut gathered
    ))?;
    Ok(gathered)
}
