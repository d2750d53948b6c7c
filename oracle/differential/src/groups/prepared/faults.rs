//! Matrices, layouts, masks and owners with a fault, in both calls.

use super::Call;
use super::cases::{owners, prepare, prepare_in};
use super::rooms::{LISTS, needed};
use crate::groups::csr32::{Matrix, NOT_FINITE};
use crate::groups::growth::{blocks_of, mask_of, wrong_layouts, wrong_masks};
use crate::groups::layout::Layout;
use crate::groups::local::{of_entries, square};

pub fn run(run: &mut dyn FnMut(Call)) {
    matrices(run);
    layouts(run);
    masks(run);
    totals(run);
}

/// One small call with each fault, and with each list one too short.
pub fn few(run: &mut dyn FnMut(Call)) {
    let right = right_matrix();
    let layout = blocks_of(&[2, 1]);
    let seeds = mask_of(3, &[1]);
    wrong_matrices(&right, &mut |matrix| both(matrix, &layout, run));
    for wrong in wrong_layouts(&layout) {
        both(&right, &wrong, run);
    }
    for wrong in wrong_masks(3) {
        run(prepare(&right, &layout, &wrong, 1));
    }
    for list in 0..LISTS {
        for longer in [false, true] {
            let mut lengths = needed(&right);
            lengths[list] = if longer {
                lengths[list] + 2
            } else {
                lengths[list] - 1
            };
            run(prepare_in(&right, &layout, &seeds, 1, &lengths));
        }
    }
    for (list, ranks, room) in [
        ([1, 1, 0], 2, 2),
        ([1, 1, 0], 2, 3),
        ([1, 1, 0], 2, 1),
        ([1, 1, 0], 0, 2),
        ([1, 0, 0], 2, 2),
        ([2, 2, 0], 2, 2),
        ([1, 1, 2], 2, 2),
    ] {
        run(owners(&right, &layout, &list, ranks, room));
        run(owners(&right, &layout, &list[1..], ranks, room));
    }
}

/// Three rows, none of them in rising order, with entries that come twice.
fn right_matrix() -> Matrix {
    square(&[vec![2, 1, 0], vec![0, 2], vec![1, 1]])
}

/// Both calls on a matrix and a layout, of which one may have a fault; the rest
/// is right.
fn both(matrix: &Matrix, layout: &Layout, run: &mut dyn FnMut(Call)) {
    let total = layout.offsets.last().map_or(0, |&last| last.min(200)) as usize;
    run(prepare(matrix, layout, &mask_of(total, &[]), 1));
    run(owners(matrix, layout, &vec![0; total], 1, total));
}

fn matrices(run: &mut dyn FnMut(Call)) {
    let layout = blocks_of(&[1, 2]);
    wrong_matrices(&right_matrix(), &mut |matrix| both(matrix, &layout, run));
    let mut right = of_entries(66, &[(0, 65), (65, 0), (64, 64), (64, 1), (1, 64)]);
    right.values = vec![0.5; 5];
    let layout = blocks_of(&[1, 63, 2]);
    wrong_matrices(&right, &mut |matrix| both(matrix, &layout, run));
}

/// Each of 1 to 8 planted in a right matrix; some of the changes make another
/// right one.
fn wrong_matrices(right: &Matrix, work: &mut dyn FnMut(&Matrix)) {
    let mut with = |change: &dyn Fn(&mut Matrix)| {
        let mut matrix = right.clone();
        change(&mut matrix);
        work(&matrix);
    };
    let (side, entries) = (right.nrows, right.col_idx.len());
    for far in [(1 << 20) + 1, 1 << 32, usize::MAX] {
        with(&|matrix| matrix.nrows = far);
        with(&|matrix| matrix.ncols = far);
    }
    for length in [0, 1, side, side + 2] {
        with(&|matrix| matrix.row_ptr.resize(length, entries as u32));
    }
    for length in [0, entries - 1, entries + 1] {
        with(&|matrix| matrix.values.resize(length, 0.5));
        with(&|matrix| matrix.col_idx.resize(length, 0));
    }
    for pointer in [1, 3, u32::MAX] {
        with(&|matrix| matrix.row_ptr[0] = pointer);
        with(&|matrix| matrix.row_ptr[side] = pointer);
    }
    for row in 1..side.min(4) {
        for pointer in [0, entries as u32, entries as u32 + 1, u32::MAX] {
            with(&|matrix| matrix.row_ptr[row] = pointer);
        }
    }
    for place in [0, entries / 2, entries - 1] {
        for column in [side as u32, side as u32 + 1, u32::MAX] {
            with(&|matrix| matrix.col_idx[place] = column);
        }
        for bits in NOT_FINITE {
            with(&|matrix| matrix.values[place] = f64::from_bits(bits));
        }
    }
}

/// Lists of other lengths, faulty blocks first and last, damaged offsets.
fn layouts(run: &mut dyn FnMut(Call)) {
    for sizes in [&[2, 1][..], &[1, 1, 1], &[3], &[1, 64, 65]] {
        let right = blocks_of(sizes);
        let side = sizes.iter().sum::<u32>() as usize;
        let matrix = of_entries(side, &[(0, side - 1), (side - 1, 0)]);
        let seeds = mask_of(side, &[0]);
        for layout in wrong_layouts(&right) {
            run(prepare(&matrix, &layout, &seeds, 1));
            run(owners(&matrix, &layout, &vec![0; side], 1, sizes.len()));
        }
    }
}

fn masks(run: &mut dyn FnMut(Call)) {
    for side in [1, 2, 3, 63, 64, 65, 127, 128, 129] {
        let matrix = of_entries(side, &[(0, side - 1)]);
        for layout in [blocks_of(&[side as u32]), blocks_of(&vec![1; side])] {
            for seeds in wrong_masks(side) {
                for hops in [0, 1] {
                    run(prepare(&matrix, &layout, &seeds, hops));
                }
            }
        }
    }
}

/// A total near the sides, matrices that are not square, and no nodes, with
/// masks and owners of the total's length and of the sides'.
fn totals(run: &mut dyn FnMut(Call)) {
    for (nrows, ncols) in [(1, 1), (3, 3), (64, 64), (65, 65), (2, 3), (3, 2), (0, 0)] {
        let matrix = Matrix {
            ncols,
            ..of_entries(nrows, &[])
        };
        for total in [nrows.saturating_sub(1), nrows, ncols, nrows + 1, nrows + 64] {
            let layout = blocks_of(&[total as u32]);
            for len in [nrows, ncols, total] {
                run(prepare(&matrix, &layout, &mask_of(len, &[]), 1));
                run(owners(&matrix, &layout, &vec![0; len], 1, 1));
            }
        }
    }
}
