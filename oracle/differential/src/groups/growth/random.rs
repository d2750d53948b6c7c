//! Random cases.

use super::cases::{FAR, blocks_of, mask_of, wrong_regions};
use super::fields::{cut, random_layout, total};
use super::fixed::{any_way, one_way};
use super::{Call, Regions, rooms};
use crate::groups::layout::{Layout, built, damage_blocks, damage_offsets, numbered, plant_fault};
use crate::groups::mask::{Mask, full, of_index, random_right, words_needed};
use crate::groups::topology::{Pair, Topology, break_side, of_pairs};
use crate::rng::Rng;

/// One call at random; a third or so have a fault.
pub fn random(rng: &mut Rng) -> Call {
    match rng.below(16) {
        0..5 => grow(rng),
        5..10 => grow_field(rng),
        10 | 11 => multiplicity(rng),
        12 => weight(rng),
        13 | 14 => close(rng),
        _ => owners(rng),
    }
}

pub fn random_side(rng: &mut Rng) -> usize {
    match rng.below(100) {
        0 => rng.below(201),
        1..4 => rng.pick(&[63, 64, 65, 66, 127, 128, 129]),
        4 => 0,
        5..20 => 1 + rng.below(40),
        _ => 1 + rng.below(12),
    }
}

fn graph(rng: &mut Rng, side: usize) -> Topology {
    let entries = match rng.below(4) {
        0 => rng.below(side / 2 + 1),
        1 => rng.below(2 * side + 1),
        _ => side,
    };
    let pairs: Vec<Pair> = match rng.below(6) {
        0 => any_way(rng, side, entries),
        1 => path(rng, side),
        _ => one_way(rng, side, entries),
    };
    of_pairs(side, side, &pairs)
}

/// All nodes in some order, each linked with the next at either order.
fn path(rng: &mut Rng, side: usize) -> Vec<Pair> {
    let mut nodes: Vec<usize> = (0..side).collect();
    rng.shuffle(&mut nodes);
    nodes
        .windows(2)
        .map(|ends| match rng.once_in(2) {
            true => (ends[0], ends[1]),
            false => (ends[1], ends[0]),
        })
        .collect()
}

pub fn random_topology(rng: &mut Rng, side: usize) -> Topology {
    let mut topology = graph(rng, side);
    match rng.below(40) {
        0 => break_side(rng, &mut topology.rows),
        1 => break_side(rng, &mut topology.columns),
        2 => {
            break_side(rng, &mut topology.rows);
            break_side(rng, &mut topology.columns);
        }
        3 => topology.columns = topology.rows.clone(),
        4 => topology.columns = graph(rng, side).columns,
        5 => topology = of_pairs(side, side + 1 + rng.below(2), &[]),
        _ => {}
    }
    topology
}

pub fn random_seeds(rng: &mut Rng, side: usize) -> Mask {
    let mut mask = match rng.below(8) {
        _ if side == 0 => mask_of(0, &[]),
        0 => mask_of(side, &[]),
        1 => full(side),
        2 => random_right(rng, side),
        3 | 4 => mask_of(side, &[rng.below(side), rng.below(side)]),
        _ => of_index(side, rng.below(side)),
    };
    match rng.below(40) {
        0 => mask.len = rng.pick(&[side + 1, side.wrapping_sub(1), 0, 1 << 20, usize::MAX]),
        1 => drop(mask.words.pop()),
        2 => mask.words.push(rng.word()),
        3 | 4 if !side.is_multiple_of(64) => {
            let bit = side % 64 + rng.below(64 - side % 64);
            mask.words[side / 64] |= 1 << bit;
        }
        _ => {}
    }
    mask
}

pub fn hops(rng: &mut Rng, side: usize) -> u64 {
    match rng.below(12) {
        0 => rng.pick(&FAR),
        1 => rng.below(side + 2) as u64,
        2 => 0,
        _ => 1 + rng.below(4) as u64,
    }
}

fn grow(rng: &mut Rng) -> Call {
    let side = random_side(rng);
    Call::Grow {
        topology: random_topology(rng, side),
        seeds: random_seeds(rng, side),
        hops: hops(rng, side),
        lent: rooms::random(rng, words_needed(side)),
    }
}

/// Blocks over exactly so many nodes, which is at least 1, mostly.
pub fn layout(rng: &mut Rng, side: usize) -> Layout {
    let most = rng.pick(&[1, 2, 3, 3, 5, 70]);
    let sizes = cut(side, || 1 + rng.below(most));
    let mut list = numbered(&sizes);
    if rng.once_in(10) && !list.is_empty() {
        plant_fault(rng, &mut list);
    }
    let mut layout = built(&list);
    match rng.below(30) {
        0 if !layout.offsets.is_empty() => damage_offsets(rng, &mut layout.offsets),
        1 => damage_blocks(rng, &mut layout.blocks),
        2 => layout = blocks_of(&[side as u32 + 1]),
        _ => {}
    }
    layout
}

fn grow_field(rng: &mut Rng) -> Call {
    let side = random_side(rng);
    Call::GrowField {
        topology: random_topology(rng, side),
        layout: layout(rng, side),
        seeds: random_seeds(rng, side),
        hops: hops(rng, side),
        lent: rooms::random(rng, words_needed(side)),
    }
}

fn random_regions(rng: &mut Rng) -> Regions {
    let node_count = match rng.below(8) {
        0 => rng.below(201),
        1 => rng.pick(&[63, 64, 65, 127, 128, 129]),
        _ => rng.below(16),
    };
    let region_count = match rng.below(30) {
        0 => rng.below(40),
        _ => rng.below(6),
    };
    let masks = (0..region_count).map(|_| random_right(rng, node_count).words);
    let right = Regions {
        node_count,
        region_count,
        words: masks.collect::<Vec<_>>().concat(),
    };
    if rng.once_in(5) {
        let mut wrong = wrong_regions(&right);
        return wrong.swap_remove(rng.below(wrong.len()));
    }
    right
}

fn multiplicity(rng: &mut Rng) -> Call {
    let regions = random_regions(rng);
    Call::Multiplicity {
        counts: rooms::narrow(rng, regions.node_count.min(1_000)),
        regions,
    }
}

fn weight(rng: &mut Rng) -> Call {
    let regions = random_regions(rng);
    let mut at = |count: usize| match rng.below(20) {
        0 => rng.pick(&FAR),
        1 => count as u64,
        _ => rng.below(count.clamp(1, 1_000)) as u64,
    };
    Call::Weight {
        region: at(regions.region_count),
        node: at(regions.node_count),
        regions,
    }
}

fn close(rng: &mut Rng) -> Call {
    let layout = match rng.below(3) {
        0 => random_layout(rng, 8),
        _ => {
            let side = 1 + rng.below(150);
            layout(rng, side)
        }
    };
    let nodes = total(&layout).min(1 << 20);
    Call::Close {
        selected: random_seeds(rng, nodes),
        out: rooms::room(rng, words_needed(nodes)),
        layout,
    }
}

fn owners(rng: &mut Rng) -> Call {
    let side = 1 + rng.below(14);
    let layout = layout(rng, side);
    let ranks = rng.pick(&[0, 1, 2, 3, 3, 3, 8, u32::MAX]);
    let mut dof_owners = vec![];
    for &size in &layout.blocks.components {
        let owner = rng.below(4) as u32;
        dof_owners.resize(dof_owners.len() + size.min(200) as usize, owner);
    }
    if rng.once_in(4) && !dof_owners.is_empty() {
        let node = rng.below(dof_owners.len());
        dof_owners[node] = rng.pick(&[0, 1, ranks, u32::MAX]);
    }
    match rng.below(20) {
        0 => drop(dof_owners.pop()),
        1 => dof_owners.push(0),
        _ => {}
    }
    Call::Owners {
        out: rooms::narrow(rng, layout.blocks.kinds.len()),
        layout,
        dof_owners,
        ranks,
    }
}
