//! Topologies, layouts and masks with a fault, in every call that takes one.

use super::Call;
use super::cases::{
    blocks_of, close, grow, grow_field, mask_of, owners, wrong_layouts, wrong_masks,
};
use crate::groups::layout::{Block, Layout, built};
use crate::groups::topology::{Topology, faults, of_pairs};

pub fn run(run: &mut dyn FnMut(Call)) {
    topologies(run);
    not_square(run);
    masks(run);
    layouts(run);
    block_faults(run);
    totals(run);
}

/// Square ones that faults are planted in, with a layout of each.
fn right_ones() -> Vec<(Topology, Layout)> {
    vec![
        (of_pairs(1, 1, &[(0, 0)]), blocks_of(&[1])),
        (of_pairs(3, 3, &[(0, 1), (1, 2)]), blocks_of(&[2, 1])),
        (
            of_pairs(66, 66, &[(0, 0), (0, 65), (65, 0), (64, 64), (1, 64)]),
            blocks_of(&[1, 63, 2]),
        ),
        (
            of_pairs(130, 130, &[(0, 129), (5, 64), (5, 65), (129, 128), (64, 0)]),
            blocks_of(&[70, 60]),
        ),
    ]
}

fn topologies(run: &mut dyn FnMut(Call)) {
    for (right, layout) in right_ones() {
        let seeds = mask_of(right.rows.nrows, &[0]);
        let mut all = [faults::disagreeing(&right), faults::hidden(&right)].concat();
        for rows in faults::broken(&right.rows) {
            let columns = right.columns.clone();
            all.push(Topology { rows, columns });
        }
        for columns in faults::broken(&right.columns) {
            let rows = right.rows.clone();
            all.push(Topology { rows, columns });
        }
        for topology in all {
            run(grow(&topology, &seeds, 1));
            run(grow_field(&topology, &layout, &seeds, 1));
        }
    }
}

/// By the mask of either side's length.
fn not_square(run: &mut dyn FnMut(Call)) {
    for (nrows, ncols) in [
        (2, 3),
        (3, 2),
        (0, 1),
        (1, 0),
        (64, 65),
        (65, 64),
        (1, 1_000),
    ] {
        let topology = of_pairs(nrows, ncols, &[]);
        for len in [nrows, ncols] {
            let seeds = mask_of(len, &[]);
            for hops in [0, 1] {
                run(grow(&topology, &seeds, hops));
                for total in [nrows, ncols] {
                    let layout = blocks_of(&[total as u32]);
                    run(grow_field(&topology, &layout, &seeds, hops));
                }
            }
        }
    }
}

fn masks(run: &mut dyn FnMut(Call)) {
    for side in [1, 2, 3, 63, 64, 65, 127, 128, 129] {
        let topology = of_pairs(side, side, &[(0, side - 1)]);
        let layout = blocks_of(&[side as u32]);
        for seeds in wrong_masks(side) {
            for hops in [0, 1] {
                run(grow(&topology, &seeds, hops));
                run(grow_field(&topology, &layout, &seeds, hops));
            }
            run(close(&layout, &seeds));
        }
    }
    let none = of_pairs(0, 0, &[]);
    for seeds in wrong_masks(0) {
        run(grow(&none, &seeds, 1));
    }
}

/// Lists of other lengths, faulty blocks first and last, damaged offsets.
fn layouts(run: &mut dyn FnMut(Call)) {
    for sizes in [&[2, 1][..], &[1, 1, 1], &[3], &[1, 64, 65]] {
        let right = blocks_of(sizes);
        let side = super::fields::total(&right);
        let topology = of_pairs(side, side, &[(0, side - 1)]);
        let seeds = mask_of(side, &[0]);
        for layout in wrong_layouts(&right) {
            run(grow_field(&topology, &layout, &seeds, 1));
            run(close(&layout, &seeds));
            run(owners(&layout, &vec![0; side], 1, sizes.len()));
        }
    }
}

/// Every choice of faults in each of 2 blocks: an unknown kind, no components,
/// the key of the first block, a size that takes the total over the limit.
fn block_faults(run: &mut dyn FnMut(Call)) {
    let topology = of_pairs(2, 2, &[(0, 1)]);
    let seeds = mask_of(2, &[0]);
    for faults in 0..1_u32 << 8 {
        let list: Vec<Block> = (0..2).map(|at| faulty(at, faults >> (4 * at))).collect();
        let layout = built(&list);
        run(grow_field(&topology, &layout, &seeds, 1));
        run(close(&layout, &seeds));
        run(owners(&layout, &[0, 0], 1, 2));
    }
}

fn faulty(at: u64, faults: u32) -> Block {
    let fault = |bit: u32| faults >> bit & 1 == 1;
    Block {
        kind: if fault(0) { 7 } else { 1 },
        id: if fault(2) { 0 } else { at },
        field: 0,
        components: match (fault(1), fault(3)) {
            (true, _) => 0,
            (_, true) => (1 << 20) + 1,
            _ => 1,
        },
    }
}

/// A total near the sides, with masks of the total's length and of the sides'.
fn totals(run: &mut dyn FnMut(Call)) {
    for side in [1, 3, 64, 65] {
        let topology = of_pairs(side, side, &[]);
        for total in [side - 1, side, side + 1, side + 64, 2 * side] {
            if total == 0 {
                continue;
            }
            let layout = blocks_of(&[total as u32]);
            for len in [side, total] {
                run(grow_field(&topology, &layout, &mask_of(len, &[]), 1));
            }
        }
    }
}
