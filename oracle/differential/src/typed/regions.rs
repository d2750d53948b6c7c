//! Growth, closure, owners, multiplicity.

use hybit_matrix::{
    AbtmRegionGrowthStats, AbtmRegionMultiplicityStats, DofMask, FieldAwareRegionStats,
    close_to_field_blocks, field_block_owners, grow_field_aware_region, grow_undirected_region,
    region_multiplicity, weight,
};

use super::Answered::{Nothing, U32, U64};
use super::{Case, Compared, End, numbers};
use crate::answer::Answer;
use crate::expected::REGION_LIMIT;
use crate::groups::growth::{Call, Regions};
use crate::groups::mask::{Mask, words_needed};

pub fn compare(call: &Call, case: &Case) -> Compared {
    match call {
        Call::Grow { .. } | Call::GrowField { .. } => grow(call, case),
        Call::Close {
            layout, selected, ..
        } => {
            let (layout, selected) = (case.layout(layout)?, case.mask(selected)?);
            let closed = case.accepted(close_to_field_blocks(&layout, &selected))?;
            case.told(numbers(&[closed.len()]), &[U64(closed.words())])
        }
        Call::Owners {
            layout,
            dof_owners,
            ranks,
            ..
        } => {
            let layout = case.layout(layout)?;
            let owners = case.accepted(field_block_owners(&layout, dof_owners, *ranks))?;
            let lists = [Nothing, Nothing, Nothing, U32(&owners)];
            case.told(numbers(&[owners.len()]), &lists)
        }
        Call::Multiplicity { regions, .. } => multiplicity(regions, case),
        Call::Weight {
            regions,
            region,
            node,
        } => weigh(regions, *region as usize, *node as usize, case),
    }
}

/// Plain growths and those by blocks.
fn grow(call: &Call, case: &Case) -> Compared {
    match call {
        Call::Grow {
            topology,
            seeds,
            hops,
            ..
        } => {
            let (topology, seeds) = (case.topology(topology)?, case.mask(seeds)?);
            let grown = grow_undirected_region(&topology, &seeds, *hops as usize);
            let grown = case.accepted(grown)?;
            let lists = [U64(grown.region().words()), U64(grown.frontier().words())];
            case.told(plain(grown.stats()), &lists)
        }
        Call::GrowField {
            topology,
            layout,
            seeds,
            hops,
            ..
        } => {
            let (topology, layout) = (case.topology(topology)?, case.layout(layout)?);
            let seeds = case.mask(seeds)?;
            let grown = grow_field_aware_region(&topology, &layout, &seeds, *hops as usize);
            let grown = case.accepted(grown)?;
            let lists = [U64(grown.region().words()), U64(grown.frontier().words())];
            case.told(numbers(&of_field(grown.stats())), &lists)
        }
        _ => unreachable!("a growth"),
    }
}

fn plain(stats: AbtmRegionGrowthStats) -> Answer {
    numbers(&[
        stats.hops_requested,
        stats.hops_completed,
        stats.seed_nodes,
        stats.region_nodes,
        stats.frontier_nodes_visited,
        stats.row_words_visited,
        stats.column_words_visited,
        stats.candidate_neighbor_bits,
        stats.topology_words_visited(),
        stats.new_nodes(),
    ])
}

pub fn of_field(stats: FieldAwareRegionStats) -> [usize; 10] {
    [
        stats.hops_requested,
        stats.hops_completed,
        stats.seed_dofs,
        stats.block_closed_seed_dofs,
        stats.region_dofs,
        stats.region_blocks,
        stats.frontier_dofs_visited,
        stats.row_words_visited,
        stats.column_words_visited,
        stats.candidate_neighbor_bits,
    ]
}

fn multiplicity(regions: &Regions, case: &Case) -> Compared {
    let Some(masks) = masks(regions, case)? else {
        return Ok(());
    };
    let found = case.accepted(region_multiplicity(regions.node_count, &masks))?;
    let lists = [Nothing, Nothing, Nothing, U32(found.counts())];
    case.told(of_regions(found.stats()), &lists)
}

fn weigh(regions: &Regions, region: usize, node: usize, case: &Case) -> Compared {
    let Some(masks) = masks(regions, case)? else {
        return Ok(());
    };
    let weight = case.accepted(weight(regions.node_count, &masks, region, node))?;
    case.told(Answer::told(weight), &[])
}

fn of_regions(stats: AbtmRegionMultiplicityStats) -> Answer {
    Answer::told_all(&[
        stats.region_count as u64,
        stats.node_count as u64,
        stats.total_memberships,
        stats.covered_nodes as u64,
        stats.overlap_nodes as u64,
        stats.max_multiplicity.into(),
        stats.pair_overlap_memberships,
        stats.extra_memberships(),
        stats.average_multiplicity_on_covered().to_bits(),
        stats.overlap_fraction_on_covered().to_bits(),
    ])
}

/// The regions one by one; none if the flat list cannot be cut into so many.
/// One more than the limit is as good as any larger number.
fn masks(regions: &Regions, case: &Case) -> Result<Option<Vec<DofMask>>, End> {
    let Regions {
        node_count,
        region_count,
        words,
    } = regions;
    let own = words_needed(*node_count);
    if own.checked_mul(*region_count) != Some(words.len()) {
        return Ok(None);
    }
    let mask = |region: usize| {
        case.mask(&Mask {
            len: *node_count,
            words: words[region * own..(region + 1) * own].to_vec(),
        })
    };
    let made: Result<Vec<DofMask>, End> = (0..(*region_count).min(REGION_LIMIT + 1))
        .map(mask)
        .collect();
    made.map(Some)
}
