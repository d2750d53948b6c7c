//! Regions of whole blocks.

use crate::lend::{ask, mask_words};
use crate::{
    AbtmDualTopology, AbtmLocalSubmatrixPattern, DofMask, FieldAwareDofLayout, Refusal,
    extract_local_submatrix_pattern,
};

/// The nodes of every block that holds a selected one. Refused by 11.
pub fn close_to_field_blocks(
    layout: &FieldAwareDofLayout,
    selected: &DofMask,
) -> Result<DofMask, Refusal> {
    let mut words = mask_words(selected.len());
    ask!(hybit_close_to_field_blocks(layout layout, mask selected, &mut words))?;
    Ok(DofMask::written(selected.len(), words))
}

/// What a field growth met on its way; closing to blocks follows no link.
#[derive(Clone, Copy, Debug, Default, PartialEq, Eq)]
pub struct FieldAwareRegionStats {
    pub hops_requested: usize,
    pub hops_completed: usize,
    pub seed_dofs: usize,
    pub block_closed_seed_dofs: usize,
    pub region_dofs: usize,
    pub region_blocks: usize,
    pub frontier_dofs_visited: usize,
    pub row_words_visited: usize,
    pub column_words_visited: usize,
    pub candidate_neighbor_bits: usize,
}

/// A region of whole blocks, and those that its last hop found.
#[derive(Clone, Debug, PartialEq, Eq)]
pub struct FieldAwareRegionGrowth {
    region: DofMask,
    frontier: DofMask,
    stats: FieldAwareRegionStats,
}

impl FieldAwareRegionGrowth {
    pub fn region(&self) -> &DofMask {
        &self.region
    }

    pub fn frontier(&self) -> &DofMask {
        &self.frontier
    }

    pub fn stats(&self) -> FieldAwareRegionStats {
        self.stats
    }

    /// The pairs of the region. Refused by 10, 11, where the topology is not the one that it was grown on.
    pub fn local_pattern(
        &self,
        topology: &AbtmDualTopology,
    ) -> Result<AbtmLocalSubmatrixPattern, Refusal> {
        extract_local_submatrix_pattern(topology, &self.region)
    }

    /// Words that a call of the port has written as masks of this length.
    pub(crate) fn written(
        len: usize,
        region: Vec<u64>,
        frontier: Vec<u64>,
        stats: FieldAwareRegionStats,
    ) -> Self {
        Self {
            region: DofMask::written(len, region),
            frontier: DofMask::written(len, frontier),
            stats,
        }
    }
}

/// The statistics of a field growth as two of the port's records have them.
macro_rules! field_stats {
    ($record:expr) => {
        $crate::FieldAwareRegionStats {
            hops_requested: $record.hops_requested as usize,
            hops_completed: $record.hops_completed as usize,
            seed_dofs: $record.seed_dofs as usize,
            block_closed_seed_dofs: $record.block_closed_seed_dofs as usize,
            region_dofs: $record.region_dofs as usize,
            region_blocks: $record.region_blocks as usize,
            frontier_dofs_visited: $record.frontier_dofs_visited as usize,
            row_words_visited: $record.row_words_visited as usize,
            column_words_visited: $record.column_words_visited as usize,
            candidate_neighbor_bits: $record.candidate_neighbor_bits as usize,
        }
    };
}
pub(crate) use field_stats;

/// The whole blocks within so many links of a seeded one. The seeds are closed to blocks before the first hop, and each
/// hop after it. Refused by 18, 11.
pub fn grow_field_aware_region(
    topology: &AbtmDualTopology,
    layout: &FieldAwareDofLayout,
    seeds: &DofMask,
    hops: usize,
) -> Result<FieldAwareRegionGrowth, Refusal> {
    let len = topology.nrows();
    let [mut region, mut frontier, mut scratch] = [(); 3].map(|()| mask_words(len));
    let stats = ask!(hybit_grow_field_aware_region(
        topology topology,
        layout layout,
        mask seeds,
        hops as u64,
        &mut region,
        &mut frontier,
        &mut scratch
    ))?;
    Ok(FieldAwareRegionGrowth::written(
        len,
        region,
        frontier,
        field_stats!(stats),
    ))
}

/// The one owner of each block, from the owners of the nodes. Refused by 11, 19, and block by block by 20, 21.
pub fn field_block_owners(
    layout: &FieldAwareDofLayout,
    dof_owners: &[u32],
    ranks: u32,
) -> Result<Vec<u32>, Refusal> {
    let mut owners = vec![0; layout.blocks().len()];
    ask!(hybit_field_block_owners(layout layout, dof_owners, ranks, &mut owners))?;
    Ok(owners)
}
