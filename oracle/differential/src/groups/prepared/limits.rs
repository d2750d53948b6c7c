//! At the limits and past them. Few, as they are large.

use super::Call;
use super::cases::{owners, prepare, prepare_in};
use super::rooms::{LISTS, needed};
use crate::expected::{ENTRY_LIMIT, SIDE_LIMIT};
use crate::groups::csr32::Matrix;
use crate::groups::growth::{blocks_of, cut, mask_of};
use crate::groups::local::of_entries;
use crate::groups::mask::Mask;

pub fn run(run: &mut dyn FnMut(Call)) {
    largest(run);
    past(run);
    entries(run);
    far_masks(run);
}

/// The largest side, with entries at both ends, and in the middle over a
/// border; each list one too short.
fn largest(run: &mut dyn FnMut(Call)) {
    let last = SIDE_LIMIT - 1;
    let middle = 1 << 19;
    let pairs = [
        (0, last),
        (0, 0),
        (last, last - 64),
        (last, 3),
        (middle, 0),
        (7, middle),
    ];
    let matrix = of_entries(SIDE_LIMIT, &pairs);
    let layout = blocks_of(&cut(SIDE_LIMIT, || 1 << 10));
    let seeds = mask_of(SIDE_LIMIT, &[last]);
    for hops in [0, 1, u64::MAX] {
        run(prepare(&matrix, &layout, &seeds, hops));
    }
    for list in 0..LISTS {
        let mut lengths = needed(&matrix);
        lengths[list] -= 1;
        run(prepare_in(&matrix, &layout, &seeds, 1, &lengths));
    }
    let blocks = layout.blocks.kinds.len();
    let mut list = vec![3; SIDE_LIMIT];
    run(owners(&matrix, &layout, &list, 4, blocks));
    list[last] = 2;
    run(owners(&matrix, &layout, &list, 4, blocks));
}

/// One more, in rows and columns, or in one of them; a layout's total past the
/// limit, in one block and in the last of several.
fn past(run: &mut dyn FnMut(Call)) {
    let none = of_entries(1, &[]);
    let layout = blocks_of(&[1]);
    let seeds = mask_of(1, &[0]);
    for far in [SIDE_LIMIT + 1, 1 << 32, usize::MAX] {
        for (nrows, ncols) in [(far, 1), (1, far), (far, far)] {
            let matrix = Matrix {
                nrows,
                ncols,
                ..none.clone()
            };
            run(prepare(&matrix, &layout, &seeds, 1));
            run(owners(&matrix, &layout, &[0], 1, 1));
        }
    }
    let most = SIDE_LIMIT as u32;
    for sizes in [vec![most + 1], vec![most, 1], vec![1, most], vec![u32::MAX]] {
        let layout = blocks_of(&sizes);
        run(prepare(&none, &layout, &seeds, 1));
        run(owners(&none, &layout, &[0], 1, 2));
    }
}

/// One entry more than there may be, in either list.
fn entries(run: &mut dyn FnMut(Call)) {
    let layout = blocks_of(&[1]);
    let seeds = mask_of(1, &[0]);
    for (columns, values) in [(ENTRY_LIMIT + 1, 0), (0, ENTRY_LIMIT + 1)] {
        let matrix = Matrix {
            nrows: 1,
            ncols: 1,
            row_ptr: vec![0, columns as u32],
            col_idx: vec![0; columns],
            values: vec![1.0; values],
        };
        run(prepare_in(&matrix, &layout, &seeds, 1, &[2; LISTS]));
        run(owners(&matrix, &layout, &[0], 1, 1));
    }
}

/// A mask's length over the limit is of the wrong length, not over a limit.
fn far_masks(run: &mut dyn FnMut(Call)) {
    let matrix = of_entries(1, &[(0, 0)]);
    let layout = blocks_of(&[1]);
    for len in [SIDE_LIMIT, SIDE_LIMIT + 1, 1 << 32, usize::MAX] {
        let seeds = Mask {
            len,
            words: vec![0],
        };
        run(prepare(&matrix, &layout, &seeds, 1));
    }
}
