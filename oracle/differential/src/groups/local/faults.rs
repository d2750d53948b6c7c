//! Topologies, masks and matrices with a fault, in every call that takes one.

use super::Call;
use super::cases::{of_entries, pattern, plan, topology_of};
use crate::groups::csr32::{FINITE, Matrix, NOT_FINITE, lists};
use crate::groups::growth::{mask_of, wrong_masks};
use crate::groups::mask::full;
use crate::groups::topology::{Pair, Topology, faults, of_pairs};

pub fn run(run: &mut dyn FnMut(Call)) {
    topologies(run);
    not_square(run);
    sides(run);
    masks(run);
    matrices(run);
    special_values(run);
}

/// Sides and entries that faults are planted in.
fn right_ones() -> Vec<(usize, Vec<Pair>)> {
    vec![
        (1, vec![(0, 0)]),
        (3, vec![(0, 1), (1, 2)]),
        (66, vec![(0, 0), (0, 65), (65, 0), (64, 64), (1, 64)]),
        (130, vec![(0, 129), (5, 64), (5, 65), (129, 128), (64, 0)]),
    ]
}

fn topologies(run: &mut dyn FnMut(Call)) {
    for (side, entries) in right_ones() {
        let right = of_pairs(side, side, &entries);
        let matrix = of_entries(side, &entries);
        let mut all = [faults::disagreeing(&right), faults::hidden(&right)].concat();
        for rows in faults::broken(&right.rows) {
            let columns = right.columns.clone();
            all.push(Topology { rows, columns });
        }
        for columns in faults::broken(&right.columns) {
            let rows = right.rows.clone();
            all.push(Topology { rows, columns });
        }
        for topology in all {
            for region in [mask_of(side, &[0]), full(side)] {
                run(pattern(&topology, &region));
                run(plan(&topology, &matrix, &region));
            }
        }
    }
}

/// By the mask of either side's length.
fn not_square(run: &mut dyn FnMut(Call)) {
    for (nrows, ncols) in [
        (2, 3),
        (3, 2),
        (0, 1),
        (1, 0),
        (64, 65),
        (65, 64),
        (1, 1_000),
    ] {
        for pairs in [&[][..], &[(0, 0)]] {
            if !pairs.is_empty() && (nrows == 0 || ncols == 0) {
                continue;
            }
            let topology = of_pairs(nrows, ncols, pairs);
            for len in [nrows, ncols] {
                for region in [mask_of(len, &[]), full(len)] {
                    run(pattern(&topology, &region));
                    run(plan(&topology, &with_sides(nrows, ncols), &region));
                    run(plan(&topology, &with_sides(len, len), &region));
                }
            }
        }
    }
}

/// Without entries.
fn with_sides(nrows: usize, ncols: usize) -> Matrix {
    Matrix {
        nrows,
        ncols,
        row_ptr: vec![0; nrows + 1],
        col_idx: vec![],
        values: vec![],
    }
}

/// A topology of one size and a matrix of another: rows, columns or both.
fn sides(run: &mut dyn FnMut(Call)) {
    for (side, entries) in right_ones() {
        let topology = of_pairs(side, side, &entries);
        for nrows in [side - 1, side, side + 1, side + 64] {
            for ncols in [side - 1, side, side + 1, side + 64] {
                for len in [side, nrows, ncols] {
                    let matrix = with_sides(nrows, ncols);
                    run(plan(&topology, &matrix, &mask_of(len, &[])));
                }
            }
        }
    }
}

fn masks(run: &mut dyn FnMut(Call)) {
    for side in [1, 2, 3, 63, 64, 65, 127, 128, 129] {
        let entries = [(0, side - 1), (side - 1, 0)];
        let matrix = of_entries(side, &entries);
        let topology = topology_of(&matrix);
        for region in wrong_masks(side) {
            run(pattern(&topology, &region));
            run(plan(&topology, &matrix, &region));
        }
    }
    let matrix = of_entries(0, &[]);
    for region in wrong_masks(0) {
        run(pattern(&topology_of(&matrix), &region));
        run(plan(&topology_of(&matrix), &matrix, &region));
    }
}

/// Every choice of up to 4 pointers from 0 to 3, of up to 2 columns from 0 to
/// 2, and of up to 2 values, on a topology of two nodes and of 2 by 3.
fn matrices(run: &mut dyn FnMut(Call)) {
    let columns = lists(2, &[0, 1, 2]);
    let values = lists(2, &[1.5, f64::NAN]);
    let square = of_pairs(2, 2, &[(0, 0), (1, 1)]);
    let wide = of_pairs(2, 3, &[]);
    let mut turn = 0;
    for row_ptr in lists(4, &[0, 1, 2, 3]) {
        for col_idx in &columns {
            for values in &values {
                turn += 1;
                let matrix = Matrix {
                    nrows: 2,
                    ncols: if turn % 8 == 0 { 3 } else { 2 },
                    row_ptr: row_ptr.clone(),
                    col_idx: col_idx.clone(),
                    values: values.clone(),
                };
                let topology = if turn % 5 == 0 { &wide } else { &square };
                run(plan(topology, &matrix, &full(2)));
            }
        }
    }
}

/// A special value first, in the middle and last, inside of the region or not.
fn special_values(run: &mut dyn FnMut(Call)) {
    let mut matrix = of_entries(3, &[(0, 2), (0, 0), (1, 1), (2, 0)]);
    let topology = topology_of(&matrix);
    for bits in FINITE.into_iter().chain(NOT_FINITE) {
        for place in 0..4 {
            matrix.values = vec![1.0; 4];
            matrix.values[place] = f64::from_bits(bits);
            for region in [full(3), mask_of(3, &[0, 2]), mask_of(3, &[])] {
                run(plan(&topology, &matrix, &region));
            }
        }
    }
}
