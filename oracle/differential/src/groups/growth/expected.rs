//! What a call on regions is expected to answer.
//!
//! Masks, topologies and layouts come as lists, so the Rust's types are made of
//! them by hand (hybit_open). The Rust's own checks come before those that 01
//! adds of a mask's words, so the Rust is first asked with a mask of the same
//! length without words, and by no hops.

use hybit_open::{
    AbtmDualTopology, DofBlock, DofEntityKind, DofMask, FieldAwareDofLayout, close_to_field_blocks,
    field_block_owners, grow_field_aware_region, grow_undirected_region, region_multiplicity,
};

use super::{Call, Lent, Regions};
use crate::answer::Answer;
use crate::expected::{REGION_LIMIT, SIDE_LIMIT, refusal, write};
use crate::groups::layout::{Layout, accepted_layout};
use crate::groups::mask::{Mask, check_words, words_needed};
use crate::groups::topology::accepted_topology;

pub fn answer(call: &mut Call) -> Result<Answer, Answer> {
    match call {
        Call::Grow {
            topology,
            seeds,
            hops,
            lent,
        } => grow(&accepted_topology(topology)?, seeds, *hops, lent),
        Call::Multiplicity { regions, counts } => multiplicity(regions, counts),
        Call::Weight {
            regions,
            region,
            node,
        } => weight(regions, *region, *node),
        Call::Close {
            layout,
            selected,
            out,
        } => close(layout, selected, out),
        Call::GrowField {
            topology,
            layout,
            seeds,
            hops,
            lent,
        } => {
            let topology = accepted_topology(topology)?;
            grow_field(&topology, &opened(layout)?, seeds, *hops, lent)
        }
        Call::Owners {
            layout,
            dof_owners,
            ranks,
            out,
        } => {
            let owners =
                field_block_owners(&opened(layout)?, dof_owners, *ranks).map_err(refusal)?;
            write(&owners, out)?;
            Ok(Answer::told(owners.len() as u64))
        }
    }
}

/// "Plain growth and pattern: topology, 10, mask."
fn grow(
    topology: &AbtmDualTopology,
    seeds: &Mask,
    hops: u64,
    lent: &mut Lent,
) -> Result<Answer, Answer> {
    grow_undirected_region(topology, &without_words(seeds), 0).map_err(refusal)?;
    check_words(seeds)?;
    let grown = grow_undirected_region(topology, &seeds.open(), hops as usize).map_err(refusal)?;
    lent.take(grown.region(), grown.frontier())?;
    let stats = grown.stats();
    Ok(told([
        stats.hops_requested,
        stats.hops_completed,
        stats.seed_nodes,
        stats.region_nodes,
        stats.frontier_nodes_visited,
        stats.row_words_visited,
        stats.column_words_visited,
        stats.candidate_neighbor_bits,
        stats.topology_words_visited(),
        stats.new_nodes(),
    ]))
}

/// "Field growth: topology, layout, 18, mask."
fn grow_field(
    topology: &AbtmDualTopology,
    layout: &FieldAwareDofLayout,
    seeds: &Mask,
    hops: u64,
    lent: &mut Lent,
) -> Result<Answer, Answer> {
    grow_field_aware_region(topology, layout, &without_words(seeds), 0).map_err(refusal)?;
    check_words(seeds)?;
    let grown =
        grow_field_aware_region(topology, layout, &seeds.open(), hops as usize).map_err(refusal)?;
    lent.take(grown.region(), grown.frontier())?;
    let stats = grown.stats();
    Ok(told([
        stats.hops_requested,
        stats.hops_completed,
        stats.seed_dofs,
        stats.block_closed_seed_dofs,
        stats.region_dofs,
        stats.region_blocks,
        stats.frontier_dofs_visited,
        stats.row_words_visited,
        stats.column_words_visited,
        stats.candidate_neighbor_bits,
    ]))
}

/// "Closure: layout, mask."
fn close(layout: &Layout, selected: &Mask, out: &mut [u64]) -> Result<Answer, Answer> {
    let layout = opened(layout)?;
    close_to_field_blocks(&layout, &without_words(selected)).map_err(refusal)?;
    check_words(selected)?;
    let closed = close_to_field_blocks(&layout, &selected.open()).map_err(refusal)?;
    write(closed.words(), out)?;
    Ok(Answer::told(closed.len() as u64))
}

fn multiplicity(regions: &Regions, counts: &mut [u32]) -> Result<Answer, Answer> {
    let masks = accepted_regions(regions)?;
    let found = region_multiplicity(regions.node_count, &masks).map_err(refusal)?;
    write(found.counts(), counts)?;
    let stats = found.stats();
    Ok(Answer::told_all(&[
        stats.region_count as u64,
        stats.node_count as u64,
        stats.total_memberships,
        stats.covered_nodes as u64,
        stats.overlap_nodes as u64,
        u64::from(stats.max_multiplicity),
        stats.pair_overlap_memberships,
        stats.extra_memberships(),
        stats.average_multiplicity_on_covered().to_bits(),
        stats.overlap_fraction_on_covered().to_bits(),
    ]))
}

/// Added: "65,536 / m rounded down, m being the node's multiplicity; 0 where it
/// does not hold it; region or node out of range is 13, after multiplicity's
/// checks". Which m that is the Rust says.
fn weight(regions: &Regions, region: u64, node: u64) -> Result<Answer, Answer> {
    let masks = accepted_regions(regions)?;
    if region >= regions.region_count as u64 || node >= regions.node_count as u64 {
        return Err(Answer::refused(13));
    }
    let found = region_multiplicity(regions.node_count, &masks).map_err(refusal)?;
    let node = node as usize;
    if !masks[region as usize].contains(node) {
        return Ok(Answer::told(0));
    }
    let times = found.multiplicity(node).expect("a node in range");
    Ok(Answer::told(65_536 / u64::from(times)))
}

/// "Multiplicity: 1, 11 over the flat word list, 12." All three stand before
/// the Rust's own checks, of which none is left then.
fn accepted_regions(regions: &Regions) -> Result<Vec<DofMask>, Answer> {
    let Regions {
        node_count,
        region_count,
        words,
    } = regions;
    if *node_count > SIDE_LIMIT || *region_count > REGION_LIMIT {
        return Err(Answer::refused(1));
    }
    let own = words_needed(*node_count);
    if words.len() != region_count * own {
        return Err(Answer::wrong_length(region_count * own, words.len()));
    }
    let masks = (0..*region_count).map(|region| Mask {
        len: *node_count,
        words: words[region * own..(region + 1) * own].to_vec(),
    });
    masks
        .map(|mask| {
            check_words(&mask)?;
            Ok(mask.open())
        })
        .collect()
}

/// A layout that 01 accepts, as the type that goes with hand-made masks.
pub fn opened(layout: &Layout) -> Result<FieldAwareDofLayout, Answer> {
    let accepted = accepted_layout(layout)?;
    let blocks = accepted.blocks().iter().map(|block| DofBlock {
        entity_kind: DofEntityKind::from_code(block.entity_kind as u32).expect("a known kind"),
        entity_id: block.entity_id,
        field_id: block.field_id,
        components: block.components,
    });
    FieldAwareDofLayout::new(blocks.collect()).map_err(refusal)
}

pub fn without_words(mask: &Mask) -> DofMask {
    DofMask {
        len: mask.len,
        words: vec![],
    }
}

fn told(stats: [usize; 10]) -> Answer {
    Answer::told_all(&stats.map(|value| value as u64))
}

impl Lent {
    /// Added refusal 25, else region and frontier over the front of their lists
    /// and zeros over that of the scratch.
    pub fn take(&mut self, region: &DofMask, frontier: &DofMask) -> Result<(), Answer> {
        let needed = words_needed(region.len());
        if self.lengths().iter().any(|&length| length < needed) {
            return Err(Answer::refused(25));
        }
        write(region.words(), &mut self.region)?;
        write(frontier.words(), &mut self.frontier)?;
        self.scratch[..needed].fill(0);
        Ok(())
    }

    pub fn lengths(&self) -> [usize; 3] {
        [self.region.len(), self.frontier.len(), self.scratch.len()]
    }
}
