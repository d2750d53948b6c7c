//! One matrix and its layout, prepared for many regions; and one region in a single call.

use crate::field_region::field_stats;
use crate::lend::{ask, mask_words};
use crate::{
    AbtmDualTopology, AbtmDualTopologyStats, AbtmLocalNumericPlan, AbtmLocalNumericPlanStats,
    AbtmLocalSubmatrixPattern, AbtmLocalSubmatrixPatternStats, Csr32Matrix, DofMask,
    FieldAwareDofLayout, FieldAwareRegionGrowth, FieldAwareRegionStats, Refusal, calls,
    grow_field_aware_region, prepare_local_numeric_plan,
};

/// A matrix, its layout and its topology, which is built once.
#[derive(Debug)]
pub struct PreparedFieldAwareTopology<'matrix> {
    matrix: &'matrix Csr32Matrix,
    layout: FieldAwareDofLayout,
    topology: AbtmDualTopology,
}

impl<'matrix> PreparedFieldAwareTopology<'matrix> {
    /// Refused by 18. The layout is copied.
    pub fn new(
        matrix: &'matrix Csr32Matrix,
        layout: &FieldAwareDofLayout,
    ) -> Result<Self, Refusal> {
        layout.validate_square_matrix_size(matrix.nrows(), matrix.ncols())?;
        Ok(Self {
            matrix,
            layout: layout.clone(),
            topology: AbtmDualTopology::from_csr32(matrix)?,
        })
    }

    pub fn topology(&self) -> &AbtmDualTopology {
        &self.topology
    }

    pub fn layout(&self) -> &FieldAwareDofLayout {
        &self.layout
    }

    pub fn topology_stats(&self) -> AbtmDualTopologyStats {
        self.topology.stats()
    }

    /// A region and its plan on the held topology, by a call of the port for each. Refused by 11.
    pub fn prepare_region(
        &self,
        seeds: &DofMask,
        hops: usize,
    ) -> Result<PreparedFieldAwareLocalRegion, Refusal> {
        let growth = grow_field_aware_region(&self.topology, &self.layout, seeds, hops)?;
        let numeric_plan =
            prepare_local_numeric_plan(&self.topology, self.matrix, growth.region())?;
        Ok(PreparedFieldAwareLocalRegion {
            growth,
            numeric_plan,
        })
    }

    /// `prepare_region` of each mask, up to the first that is refused.
    pub fn prepare_regions(
        &self,
        seed_masks: &[DofMask],
        hops: usize,
    ) -> Result<Vec<PreparedFieldAwareLocalRegion>, Refusal> {
        let regions = seed_masks.iter();
        regions
            .map(|seeds| self.prepare_region(seeds, hops))
            .collect()
    }

    /// The one owner of each block. Refused by 11, 19, and block by block by 20, 21.
    pub fn validate_block_owners(
        &self,
        dof_owners: &[u32],
        ranks: u32,
    ) -> Result<Vec<u32>, Refusal> {
        let mut owners = vec![0; self.layout.blocks().len()];
        ask!(hybit_validate_block_owners(
            matrix self.matrix,
            layout self.layout,
            dof_owners,
            ranks,
            &mut owners
        ))?;
        Ok(owners)
    }
}

/// A region of whole blocks and the plan of its values.
#[derive(Clone, Debug)]
pub struct PreparedFieldAwareLocalRegion {
    growth: FieldAwareRegionGrowth,
    numeric_plan: AbtmLocalNumericPlan,
}

impl PreparedFieldAwareLocalRegion {
    pub fn region(&self) -> &DofMask {
        self.growth.region()
    }

    /// What the last hop found. The original has no such method.
    pub fn frontier(&self) -> &DofMask {
        self.growth.frontier()
    }

    pub fn growth_stats(&self) -> FieldAwareRegionStats {
        self.growth.stats()
    }

    pub fn pattern(&self) -> &AbtmLocalSubmatrixPattern {
        self.numeric_plan.pattern()
    }

    /// The original has no such method.
    pub fn numeric_plan(&self) -> &AbtmLocalNumericPlan {
        &self.numeric_plan
    }

    pub fn numeric_plan_stats(&self) -> AbtmLocalNumericPlanStats {
        self.numeric_plan.stats()
    }

    /// The local values from new values in the order of the same matrix, without a second search. Refused by 1, 11, 8.
    pub fn gather_values(&self, csr_values: &[f64]) -> Result<Vec<f64>, Refusal> {
        self.numeric_plan.gather_values(csr_values)
    }
}

/// What one call of the port prepares: the topology too.
#[derive(Clone, Debug)]
pub struct PreparedRegion {
    topology: AbtmDualTopology,
    topology_stats: AbtmDualTopologyStats,
    local: PreparedFieldAwareLocalRegion,
}

impl PreparedRegion {
    pub fn topology(&self) -> &AbtmDualTopology {
        &self.topology
    }

    pub fn topology_stats(&self) -> AbtmDualTopologyStats {
        self.topology_stats
    }

    /// Region, frontier, pattern, plan and their statistics.
    pub fn local(&self) -> &PreparedFieldAwareLocalRegion {
        &self.local
    }

    /// The same without the topology.
    pub fn into_local(self) -> PreparedFieldAwareLocalRegion {
        self.local
    }
}

/// Topology, region and plan in one call of the port, for a station that asks for one region of a matrix. Refused by
/// 18, 11.
pub fn prepare_region(
    matrix: &Csr32Matrix,
    layout: &FieldAwareDofLayout,
    seeds: &DofMask,
    hops: usize,
) -> Result<PreparedRegion, Refusal> {
    let (side, entries) = (matrix.nrows(), matrix.nnz());
    let mut topology = AbtmDualTopology::room(side, matrix.ncols(), entries);
    let mut plan = AbtmLocalNumericPlan::room(side, entries, entries);
    let [mut region, mut frontier, mut scratch] = [(); 3].map(|()| mask_words(side));
    let (rows, columns) = topology.sides_mut();
    let (rows, columns) = (rows.lists_mut(), columns.lists_mut());
    let answer = ask!(hybit_prepare_region(
        matrix matrix, layout layout, mask seeds, hops as u64,
        rows.0, rows.1, rows.2, columns.0, columns.1, columns.2,
        &mut vec![0; matrix.ncols() + 1],
        &mut vec![0; entries],
        &mut region,
        &mut frontier,
        &mut scratch,
        &mut plan.pattern.global_nodes,
        &mut plan.pattern.row_ptr,
        &mut plan.pattern.col_idx,
        &mut plan.source_ptr,
        &mut plan.source_indices
    ))?;
    Ok(PreparedRegion {
        topology: topology.written(answer.row_words, answer.column_words, answer.pairs),
        topology_stats: topology_stats(&answer),
        local: PreparedFieldAwareLocalRegion {
            growth: FieldAwareRegionGrowth::written(side, region, frontier, field_stats!(answer)),
            numeric_plan: plan.written(pattern_stats(&answer), plan_stats(&answer)),
        },
    })
}

fn topology_stats(answer: &calls::PreparedAnswer) -> AbtmDualTopologyStats {
    AbtmDualTopologyStats {
        nrows: answer.topology_nrows as usize,
        ncols: answer.topology_ncols as usize,
        structural_nnz: answer.structural_nnz as usize,
        row_metadata_bytes: answer.row_metadata_bytes as usize,
        column_metadata_bytes: answer.column_metadata_bytes as usize,
    }
}

fn pattern_stats(answer: &calls::PreparedAnswer) -> AbtmLocalSubmatrixPatternStats {
    AbtmLocalSubmatrixPatternStats {
        global_nodes: answer.global_nodes as usize,
        local_nodes: answer.local_nodes as usize,
        local_nnz: answer.local_nnz as usize,
        topology_words_visited: answer.topology_words_visited as usize,
        candidate_neighbor_bits: answer.pattern_candidate_bits as usize,
        kept_neighbor_bits: answer.kept_neighbor_bits as usize,
        mapping_scratch_bytes: answer.mapping_scratch_bytes as usize,
        pattern_bytes: answer.pattern_bytes as usize,
    }
}

fn plan_stats(answer: &calls::PreparedAnswer) -> AbtmLocalNumericPlanStats {
    AbtmLocalNumericPlanStats {
        local_nodes: answer.plan_local_nodes as usize,
        local_nnz: answer.plan_local_nnz as usize,
        source_terms: answer.source_terms as usize,
        duplicate_source_terms: answer.duplicate_source_terms as usize,
        direct_source_map: answer.direct_source_map,
        plan_bytes: answer.plan_bytes as usize,
    }
}
