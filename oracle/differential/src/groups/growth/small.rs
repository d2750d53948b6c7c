//! Small graphs, layouts and regions, all of a kind.

use super::cases::{
    blocks_of, close, cuts, grow, grow_field, grow_field_in, grow_in, mask_of, multiplicity,
    owners, pairs_of,
};
use super::{Call, Regions, rooms};
use crate::groups::layout::Layout;
use crate::groups::mask::{Mask, words_needed};
use crate::groups::topology::{Topology, of_pairs};

/// For graphs of four nodes under a layout: one of these at each turn. Their
/// number has no divisor with that of the layouts and seeds, so that each graph
/// meets all of them, and each layout and seeds do.
const TURNS: [u64; 5] = [1, 2, 3, 0, u64::MAX];

pub fn run(run: &mut dyn FnMut(Call)) {
    all_closures(run);
    all_owners(run);
    all_regions(run);
    all_rooms(run);
    all_graphs(run);
    all_fields(run);
    all_fields_of_four(run);
}

pub fn each_graph(side: usize, work: &mut dyn FnMut(&Topology)) {
    for chosen in 0..1 << (side * side) {
        work(&of_pairs(side, side, &pairs_of(side, chosen)));
    }
}

pub fn each_mask(len: usize, work: &mut dyn FnMut(&Mask)) {
    for bits in 0..1 << len {
        let mut mask = mask_of(len, &[]);
        if len > 0 {
            mask.words[0] = bits;
        }
        work(&mask);
    }
}

/// Every graph of up to 4 nodes from all seeds by 0 to 5 hops.
fn all_graphs(run: &mut dyn FnMut(Call)) {
    for side in 0..=4 {
        each_graph(side, &mut |topology| {
            each_mask(side, &mut |seeds| {
                for hops in 0..=5 {
                    run(grow(topology, seeds, hops));
                }
            });
        });
    }
}

/// Every graph of up to 3 nodes under every layout from all seeds by 0 to 4
/// hops.
fn all_fields(run: &mut dyn FnMut(Call)) {
    for side in 1..=3 {
        for layout in layouts(side) {
            each_graph(side, &mut |topology| {
                each_mask(side, &mut |seeds| {
                    for hops in 0..=4 {
                        run(grow_field(topology, &layout, seeds, hops));
                    }
                });
            });
        }
    }
}

/// Every graph of 4 nodes under every layout from all seeds by one of the hop
/// counts.
fn all_fields_of_four(run: &mut dyn FnMut(Call)) {
    let layouts = layouts(4);
    let mut turns = TURNS.into_iter().cycle();
    each_graph(4, &mut |topology| {
        for layout in &layouts {
            each_mask(4, &mut |seeds| {
                let hops = turns.next().expect("it comes round");
                run(grow_field(topology, layout, seeds, hops));
            });
        }
    });
}

fn layouts(side: usize) -> Vec<Layout> {
    cuts(side).iter().map(|sizes| blocks_of(sizes)).collect()
}

/// Every graph of 2 nodes with lists of many lengths, enough or not.
fn all_rooms(run: &mut dyn FnMut(Call)) {
    each_graph(2, &mut |topology| {
        each_mask(2, &mut |seeds| {
            for lengths in rooms::near(1) {
                for hops in 0..=2 {
                    run(grow_in(topology, seeds, hops, rooms::lent(lengths)));
                    for layout in layouts(2) {
                        let lent = rooms::lent(lengths);
                        run(grow_field_in(topology, &layout, seeds, hops, lent));
                    }
                }
            }
        });
    });
}

/// Every layout and mask of up to 7 nodes.
fn all_closures(run: &mut dyn FnMut(Call)) {
    for nodes in 1..=7 {
        for layout in layouts(nodes) {
            each_mask(nodes, &mut |selected| {
                run(close(&layout, selected));
                for room in [0, 2, 4] {
                    run(Call::Close {
                        layout: layout.clone(),
                        selected: selected.clone(),
                        out: vec![u64::MAX; room],
                    });
                }
            });
        }
    }
}

/// Every layout of up to 4 nodes with owners 0 to 2 and up to 3 ranks, one
/// owner too few and too many, and lists of many lengths.
fn all_owners(run: &mut dyn FnMut(Call)) {
    for nodes in 1..=4_usize {
        for layout in layouts(nodes) {
            let blocks = layout.blocks.kinds.len();
            for length in nodes - 1..=nodes + 1 {
                for number in 0..3_u32.pow(length as u32) {
                    let list: Vec<u32> = (0..length as u32)
                        .map(|at| number / 3_u32.pow(at) % 3)
                        .collect();
                    for ranks in 0..=3 {
                        for room in [blocks, blocks - 1, blocks + 2] {
                            run(owners(&layout, &list, ranks, room));
                        }
                    }
                }
            }
        }
    }
}

/// Up to 3 regions of up to 3 nodes with every word below twice the last that
/// is right, so that some have a bit past the nodes; counts of many lengths;
/// weights of all regions and nodes. Of a word too few or too many only some.
fn all_regions(run: &mut dyn FnMut(Call)) {
    for node_count in 0..=3 {
        for region_count in 0..=3 {
            let right = region_count * words_needed(node_count);
            for length in right.saturating_sub(1)..=right + 1 {
                let below = node_count + 1;
                let step = if length == right { 1 } else { 97 };
                for number in (0..1_u64 << (length * below)).step_by(step) {
                    let words = (0..length)
                        .map(|at| number >> (at * below) & ((1 << below) - 1))
                        .collect();
                    let regions = Regions {
                        node_count,
                        region_count,
                        words,
                    };
                    for room in [node_count, node_count.saturating_sub(1), node_count + 2] {
                        run(multiplicity(&regions, room));
                    }
                    all_weights(&regions, run);
                }
            }
        }
    }
}

fn all_weights(regions: &Regions, run: &mut dyn FnMut(Call)) {
    for region in 0..=regions.region_count as u64 {
        for node in 0..=regions.node_count as u64 {
            run(Call::Weight {
                regions: regions.clone(),
                region,
                node,
            });
        }
    }
}
