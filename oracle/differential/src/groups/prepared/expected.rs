//! What a prepared region and the owners of its blocks are expected to be.
//!
//! As for growths, the Rust is first asked with a mask of the same length
//! without words: its own checks come before those that 01 adds of a mask's
//! words. Frontier and sources, which the Rust keeps to itself, are read off
//! its fields (hybit_open).

use hybit_open::{
    AbtmDualTopology, AbtmDualTopologyStats, AbtmTopology, PreparedFieldAwareLocalRegion,
    PreparedFieldAwareTopology,
};

use super::{Call, Lent, Owners, Prepare};
use crate::answer::Answer;
use crate::expected::{refusal, write};
use crate::groups::csr32::{Matrix, accepted};
use crate::groups::growth::{opened_layout, without_words};
use crate::groups::layout::Layout;
use crate::groups::local::opened_matrix;
use crate::groups::mask::{Mask, check_words};
use crate::groups::topology::Lent as SideLent;

pub fn answer(call: &mut Call) -> Result<Answer, Answer> {
    match call {
        Call::Prepare(call) => prepare(call),
        Call::Owners(call) => owners(call),
    }
}

/// What the Rust prepares: its topology and the region.
pub struct Prepared {
    pub topology: AbtmDualTopology,
    pub stats: AbtmDualTopologyStats,
    pub region: PreparedFieldAwareLocalRegion,
}

/// "Prepared region, and later calls with its inputs: matrix, layout, 18,
/// mask."
pub fn prepared(
    matrix: &Matrix,
    layout: &Layout,
    seeds: &Mask,
    hops: u64,
) -> Result<Prepared, Answer> {
    accepted(matrix)?;
    let matrix = opened_matrix(matrix);
    let layout = opened_layout(layout)?;
    let topology = PreparedFieldAwareTopology::new(&matrix, &layout).map_err(refusal)?;
    topology
        .prepare_region(&without_words(seeds), 0)
        .map_err(refusal)?;
    check_words(seeds)?;
    let region = topology
        .prepare_region(&seeds.open(), hops as usize)
        .map_err(refusal)?;
    Ok(Prepared {
        stats: topology.topology_stats(),
        topology: topology.topology,
        region,
    })
}

fn prepare(call: &mut Prepare) -> Result<Answer, Answer> {
    let found = prepared(&call.matrix, &call.layout, &call.seeds, call.hops)?;
    let entries = call.matrix.col_idx.len();
    if !call.lent.has_room(call.matrix.nrows, entries) {
        return Err(Answer::refused(25));
    }
    call.lent.take(&found, entries)?;
    let values = found.region.gather_values(&call.matrix.values);
    let bits: Vec<u64> = values
        .map_err(refusal)?
        .into_iter()
        .map(f64::to_bits)
        .collect();
    write(&bits, &mut call.gathered)?;
    call.gather_told = vec![0, bits.len() as u64];
    Ok(found.told())
}

/// The same checks up to 18, then those of the owners.
fn owners(call: &mut Owners) -> Result<Answer, Answer> {
    accepted(&call.matrix)?;
    let matrix = opened_matrix(&call.matrix);
    let layout = opened_layout(&call.layout)?;
    let topology = PreparedFieldAwareTopology::new(&matrix, &layout).map_err(refusal)?;
    let owners = topology
        .validate_block_owners(&call.dof_owners, call.ranks)
        .map_err(refusal)?;
    write(&owners, &mut call.out)?;
    Ok(Answer::told(owners.len() as u64))
}

impl Prepared {
    /// The counts of the built topology, then the statistics of each step.
    fn told(&self) -> Answer {
        let growth = self.region.growth_stats();
        let pattern = self.region.pattern().stats();
        let plan = self.region.numeric_plan_stats();
        let told = [
            self.topology.rows.masks.len(),
            self.topology.columns.masks.len(),
            self.topology.rows.structural_nnz,
            self.stats.nrows,
            self.stats.ncols,
            self.stats.structural_nnz,
            self.stats.row_metadata_bytes,
            self.stats.column_metadata_bytes,
            growth.hops_requested,
            growth.hops_completed,
            growth.seed_dofs,
            growth.block_closed_seed_dofs,
            growth.region_dofs,
            growth.region_blocks,
            growth.frontier_dofs_visited,
            growth.row_words_visited,
            growth.column_words_visited,
            growth.candidate_neighbor_bits,
            pattern.global_nodes,
            pattern.local_nodes,
            pattern.local_nnz,
            pattern.topology_words_visited,
            pattern.candidate_neighbor_bits,
            pattern.kept_neighbor_bits,
            pattern.mapping_scratch_bytes,
            pattern.pattern_bytes,
            plan.local_nodes,
            plan.local_nnz,
            plan.source_terms,
            plan.duplicate_source_terms,
            usize::from(plan.direct_source_map),
            plan.plan_bytes,
        ];
        Answer::told_all(&told.map(|value| value as u64))
    }
}

fn lists(side: &AbtmTopology) -> SideLent {
    SideLent {
        row_word_ptr: side.row_word_ptr.clone(),
        word_indices: side.word_indices.clone(),
        masks: side.masks.clone(),
    }
}

impl Lent {
    /// "A prepared region takes all that its steps take, but for pattern and
    /// plan lists side members, side + 1 pointers, entries columns and sources,
    /// entries + 1 source pointers".
    fn has_room(&self, side: usize, entries: usize) -> bool {
        let pattern = &self.plan.pattern;
        self.sides.has_room(side, side, entries)
            && self
                .masks
                .lengths()
                .iter()
                .all(|&length| length >= side.div_ceil(64))
            && pattern.global_nodes.len() >= side
            && pattern.row_ptr.len() > side
            && pattern.col_idx.len() >= entries
            && self.plan.source_ptr.len() > entries
            && self.plan.source_indices.len() >= entries
    }

    /// What each step leaves; "zero past the answer" in the lists of the plan.
    fn take(&mut self, found: &Prepared, entries: usize) -> Result<(), Answer> {
        let Prepared {
            topology, region, ..
        } = found;
        let [rows, columns] = [&topology.rows, &topology.columns].map(lists);
        self.sides.take(&rows, &columns, entries);
        let growth = &region.growth;
        self.masks.take(growth.region(), growth.frontier())?;
        let side = topology.rows.nrows;
        let plan = &region.numeric_plan;
        let lists = &mut self.plan.pattern;
        let pattern = region.pattern();
        over_zeros(pattern.global_nodes(), side, &mut lists.global_nodes)?;
        over_zeros(pattern.row_ptr(), side + 1, &mut lists.row_ptr)?;
        over_zeros(pattern.col_idx(), entries, &mut lists.col_idx)?;
        over_zeros(&plan.source_ptr, entries + 1, &mut self.plan.source_ptr)?;
        over_zeros(&plan.source_indices, entries, &mut self.plan.source_indices)
    }
}

/// The answer over zeros up to the needed length.
fn over_zeros(answer: &[u32], needed: usize, out: &mut [u32]) -> Result<(), Answer> {
    write(&vec![0; needed], out)?;
    write(answer, out)
}
