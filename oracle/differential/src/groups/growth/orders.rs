//! Calls that could be refused for several reasons: every choice of them.

use super::cases::{blocks_of, mask_of};
use super::{Call, Lent, Regions, rooms};
use crate::groups::layout::Layout;
use crate::groups::mask::Mask;
use crate::groups::topology::{Topology, of_pairs};

pub fn run(run: &mut dyn FnMut(Call)) {
    growths(run);
    field_growths(run);
    closures(run);
    block_owners(run);
    regions(run);
}

/// Which of some faults are planted, one for each bit.
#[derive(Clone, Copy)]
struct Chosen(u32);

impl Chosen {
    fn has(self, fault: u32) -> bool {
        self.0 >> fault & 1 == 1
    }
}

fn each(faults: u32, work: &mut dyn FnMut(Chosen)) {
    (0..1 << faults).for_each(|chosen| work(Chosen(chosen)));
}

/// Of the rows and of the columns: over a limit, a stored word 0; then columns
/// of another pair; not square.
const OF_TOPOLOGY: u32 = 6;

fn topology(chosen: Chosen) -> Topology {
    let columns = if chosen.has(5) { 67 } else { 66 };
    let mut topology = of_pairs(66, columns, &[(0, 1), (1, 65)]);
    if chosen.has(4) {
        topology.columns = of_pairs(66, columns, &[(0, 1), (2, 65)]).columns;
    }
    for (side, over, empty) in [(&mut topology.rows, 0, 1), (&mut topology.columns, 2, 3)] {
        if chosen.has(over) {
            side.structural_nnz = (1 << 24) + 1;
        }
        if chosen.has(empty) {
            side.masks[0] = 0;
        }
    }
    topology
}

/// Its length, its word count, a bit past the length.
const OF_MASK: u32 = 3;

fn mask(chosen: Chosen) -> Mask {
    let mut mask = mask_of(66, &[0]);
    if chosen.has(2) {
        mask.words[1] |= 1 << 2;
    }
    if chosen.has(0) {
        mask.len = 65;
    }
    if chosen.has(1) {
        mask.words.push(0);
    }
    mask
}

/// One of the three lists too short.
const OF_LENT: u32 = 2;

fn lent(chosen: Chosen) -> Lent {
    rooms::lent(match chosen.0 & 3 {
        0 => [2; 3],
        1 => [1, 2, 2],
        2 => [2, 1, 2],
        _ => [2, 2, 1],
    })
}

/// A list of another length, an unknown kind, no components, a block twice, a
/// size over the limit, offsets that are not the totals, or one too many.
const OF_LAYOUT: u32 = 7;

fn layout(chosen: Chosen, sizes: &[u32]) -> Layout {
    let mut layout = blocks_of(sizes);
    let blocks = &mut layout.blocks;
    if chosen.has(1) {
        blocks.kinds[1] = 7;
    }
    if chosen.has(2) {
        blocks.components[1] = 0;
    }
    if chosen.has(3) {
        blocks.ids[1] = blocks.ids[0];
        blocks.fields[1] = blocks.fields[0];
    }
    if chosen.has(4) {
        blocks.components[if chosen.has(2) { 2 } else { 1 }] = 1 << 20;
    }
    if chosen.has(5) {
        layout.offsets[1] += 1;
    }
    if chosen.has(6) {
        layout.offsets.push(0);
    }
    if chosen.has(0) {
        layout.blocks.fields.pop();
    }
    layout
}

fn growths(run: &mut dyn FnMut(Call)) {
    each(OF_TOPOLOGY + OF_MASK + OF_LENT, &mut |chosen| {
        let after = Chosen(chosen.0 >> OF_TOPOLOGY);
        for hops in [0, 1] {
            run(Call::Grow {
                topology: topology(chosen),
                seeds: mask(after),
                hops,
                lent: lent(Chosen(after.0 >> OF_MASK)),
            });
        }
    });
}

/// A total that is not the sides counts as a fault too.
fn field_growths(run: &mut dyn FnMut(Call)) {
    each(OF_TOPOLOGY + OF_LAYOUT + OF_MASK + OF_LENT, &mut |chosen| {
        let of_layout = Chosen(chosen.0 >> OF_TOPOLOGY);
        let of_mask = Chosen(of_layout.0 >> OF_LAYOUT);
        let of_lent = Chosen(of_mask.0 >> OF_MASK);
        let other_total = (chosen.0 ^ chosen.0 >> 7) & 1 == 1;
        let last = if other_total { 5 } else { 4 };
        run(Call::GrowField {
            topology: topology(chosen),
            layout: layout(of_layout, &[1, 61, last]),
            seeds: mask(of_mask),
            hops: 1,
            lent: lent(of_lent),
        });
    });
    // Without a fault of the topology all choices of the rest, both totals.
    each(OF_LAYOUT + OF_MASK + OF_LENT, &mut |chosen| {
        let of_mask = Chosen(chosen.0 >> OF_LAYOUT);
        for last in [4, 5, 3] {
            for not_square in [0, 1 << 5] {
                run(Call::GrowField {
                    topology: topology(Chosen(not_square)),
                    layout: layout(chosen, &[1, 61, last]),
                    seeds: mask(of_mask),
                    hops: 0,
                    lent: lent(Chosen(of_mask.0 >> OF_MASK)),
                });
            }
        }
    });
}

fn closures(run: &mut dyn FnMut(Call)) {
    each(OF_LAYOUT + OF_MASK + 1, &mut |chosen| {
        let of_mask = Chosen(chosen.0 >> OF_LAYOUT);
        let short = of_mask.has(OF_MASK);
        run(Call::Close {
            layout: layout(chosen, &[1, 61, 4]),
            selected: mask(of_mask),
            out: vec![77; if short { 1 } else { 2 }],
        });
    });
}

/// A list of another length, no ranks, an owner out of range, an owner that
/// differs inside a block, each in the first or the last block; a short list.
fn block_owners(run: &mut dyn FnMut(Call)) {
    each(OF_LAYOUT + 7, &mut |chosen| {
        let own = Chosen(chosen.0 >> OF_LAYOUT);
        let mut dof_owners = vec![1, 1, 2, 2, 2, 0, 0];
        if own.has(2) {
            dof_owners[..2].fill(9);
        }
        if own.has(3) {
            dof_owners[1] = 8;
        }
        if own.has(4) {
            dof_owners[5..].fill(9);
        }
        if own.has(5) {
            dof_owners[6] = 8;
        }
        if own.has(0) {
            dof_owners.push(0);
        }
        run(Call::Owners {
            layout: layout(chosen, &[2, 3, 2]),
            dof_owners,
            ranks: if own.has(1) { 0 } else { 3 },
            out: vec![77; if own.has(6) { 2 } else { 3 }],
        });
    });
}

/// Either count over its limit, a word too many, a bit past the nodes in the
/// first or the last region, a short list; region or node out of range.
fn regions(run: &mut dyn FnMut(Call)) {
    each(8, &mut |chosen| {
        let mut regions = Regions {
            node_count: 66,
            region_count: 3,
            words: vec![1, 2, 3, 0, 4, 1],
        };
        if chosen.has(3) {
            regions.words[1] |= 1 << 2;
        }
        if chosen.has(4) {
            regions.words[5] |= 1 << 63;
        }
        if chosen.has(2) {
            regions.words.push(0);
        }
        if chosen.has(0) {
            regions.node_count = (1 << 20) + 1;
        }
        if chosen.has(1) {
            regions.region_count = 65_537;
        }
        if !chosen.has(6) && !chosen.has(7) {
            run(Call::Multiplicity {
                regions: regions.clone(),
                counts: vec![77; if chosen.has(5) { 65 } else { 66 }],
            });
        }
        run(Call::Weight {
            regions,
            region: if chosen.has(6) { 3 } else { 2 },
            node: if chosen.has(7) { 66 } else { 64 },
        });
    });
}
