//! Regions over the pairs of a matrix: growth, counts, local systems.

mod local;

pub use local::{
    AbtmLocalNumericPlan, AbtmLocalNumericPlanStats, AbtmLocalSubmatrixPattern,
    AbtmLocalSubmatrixPatternStats, extract_local_submatrix_pattern, gather_values,
    prepare_local_numeric_plan,
};

use crate::lend::{SIDE_LIMIT, ask, mask_words};
use crate::topology::ratio;
use crate::{AbtmDualTopology, DofMask, Refusal};

/// What a plain growth met on its way.
#[derive(Clone, Copy, Debug, Default, PartialEq, Eq)]
pub struct AbtmRegionGrowthStats {
    pub hops_requested: usize,
    pub hops_completed: usize,
    pub seed_nodes: usize,
    pub region_nodes: usize,
    pub frontier_nodes_visited: usize,
    pub row_words_visited: usize,
    pub column_words_visited: usize,
    pub candidate_neighbor_bits: usize,
}

impl AbtmRegionGrowthStats {
    pub fn topology_words_visited(self) -> usize {
        self.row_words_visited
            .saturating_add(self.column_words_visited)
    }

    pub fn new_nodes(self) -> usize {
        self.region_nodes.saturating_sub(self.seed_nodes)
    }
}

/// A region, and the nodes that its last hop found.
#[derive(Clone, Debug, PartialEq, Eq)]
pub struct AbtmRegionGrowth {
    region: DofMask,
    frontier: DofMask,
    stats: AbtmRegionGrowthStats,
}

impl AbtmRegionGrowth {
    pub fn region(&self) -> &DofMask {
        &self.region
    }

    pub fn frontier(&self) -> &DofMask {
        &self.frontier
    }

    pub fn stats(&self) -> AbtmRegionGrowthStats {
        self.stats
    }
}

/// The nodes within so many links of a seed. A pair links its two nodes, whichever of them is the row. Refused by
/// 10, 11.
pub fn grow_undirected_region(
    topology: &AbtmDualTopology,
    seeds: &DofMask,
    hops: usize,
) -> Result<AbtmRegionGrowth, Refusal> {
    let len = topology.nrows();
    let [mut region, mut frontier, mut scratch] = [(); 3].map(|()| mask_words(len));
    let stats = ask!(hybit_grow_undirected_region(
        topology topology,
        mask seeds,
        hops as u64,
        &mut region,
        &mut frontier,
        &mut scratch
    ))?;
    Ok(AbtmRegionGrowth {
        region: DofMask::written(len, region),
        frontier: DofMask::written(len, frontier),
        stats: AbtmRegionGrowthStats {
            hops_requested: stats.hops_requested as usize,
            hops_completed: stats.hops_completed as usize,
            seed_nodes: stats.seed_nodes as usize,
            region_nodes: stats.region_nodes as usize,
            frontier_nodes_visited: stats.frontier_nodes_visited as usize,
            row_words_visited: stats.row_words_visited as usize,
            column_words_visited: stats.column_words_visited as usize,
            candidate_neighbor_bits: stats.candidate_neighbor_bits as usize,
        },
    })
}

/// How several regions share their nodes.
#[derive(Clone, Copy, Debug, Default, PartialEq, Eq)]
pub struct AbtmRegionMultiplicityStats {
    pub region_count: usize,
    pub node_count: usize,
    pub total_memberships: u64,
    pub covered_nodes: usize,
    pub overlap_nodes: usize,
    pub max_multiplicity: u32,
    pub pair_overlap_memberships: u64,
}

impl AbtmRegionMultiplicityStats {
    pub fn extra_memberships(self) -> u64 {
        self.total_memberships
            .saturating_sub(self.covered_nodes as u64)
    }

    pub fn average_multiplicity_on_covered(self) -> f64 {
        ratio(self.total_memberships as f64, self.covered_nodes as f64)
    }

    pub fn overlap_fraction_on_covered(self) -> f64 {
        ratio(self.overlap_nodes as f64, self.covered_nodes as f64)
    }
}

/// How many regions hold each node.
#[derive(Clone, Debug, PartialEq, Eq)]
pub struct AbtmRegionMultiplicity {
    counts: Vec<u32>,
    stats: AbtmRegionMultiplicityStats,
}

impl AbtmRegionMultiplicity {
    pub fn counts(&self) -> &[u32] {
        &self.counts
    }

    /// None past the last node.
    pub fn multiplicity(&self, node: usize) -> Option<u32> {
        self.counts.get(node).copied()
    }

    pub fn stats(&self) -> AbtmRegionMultiplicityStats {
        self.stats
    }
}

/// How many of the regions hold each of so many nodes. Refused by 1, and by 11 for the first region whose length is
/// not `node_count`.
pub fn region_multiplicity(
    node_count: usize,
    regions: &[DofMask],
) -> Result<AbtmRegionMultiplicity, Refusal> {
    let words = flat(node_count, regions)?;
    let mut counts = vec![0; node_count.min(SIDE_LIMIT)];
    let stats = ask!(hybit_region_multiplicity(
        node_count,
        regions.len(),
        &words,
        &mut counts
    ))?;
    Ok(AbtmRegionMultiplicity {
        counts,
        stats: AbtmRegionMultiplicityStats {
            region_count: stats.region_count as usize,
            node_count: stats.node_count as usize,
            total_memberships: stats.total_memberships,
            covered_nodes: stats.covered_nodes as usize,
            overlap_nodes: stats.overlap_nodes as usize,
            max_multiplicity: stats.max_multiplicity as u32,
            pair_overlap_memberships: stats.pair_overlap_memberships,
        },
    })
}

/// 65,536 divided by how many regions hold the node, rounded down; 0 where this one does not hold it. Refused as by
/// `region_multiplicity`, then by 13. The original has no weights.
pub fn weight(
    node_count: usize,
    regions: &[DofMask],
    region: usize,
    node: usize,
) -> Result<u64, Refusal> {
    let words = flat(node_count, regions)?;
    let answer = ask!(hybit_weight(
        node_count,
        regions.len(),
        &words,
        region as u64,
        node as u64
    ))?;
    Ok(answer.value)
}

/// The words of all regions, one after the other. The port measures only this list, so each region's length is asked
/// for before: by the port too, as that of a second mask.
fn flat(node_count: usize, regions: &[DofMask]) -> Result<Vec<u64>, Refusal> {
    // 1 comes before 11, of the node count as of the number of regions.
    let first = DofMask::new(node_count)?;
    ask!(hybit_region_multiplicity(0, regions.len(), &[], &mut []))?;
    for region in regions {
        first.intersects(region)?;
    }
    Ok(regions.iter().flat_map(DofMask::words).copied().collect())
}
