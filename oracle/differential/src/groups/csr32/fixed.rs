//! Fixed cases: all small matrices, special values, and limits.

use super::values::{FINITE, NOT_FINITE};
use super::{Call, Matrix, validate};
use crate::expected::{ENTRY_LIMIT, SIDE_LIMIT};

pub fn fixed(run: &mut dyn FnMut(Call)) {
    small(run);
    special_values(run);
    side_limits(run);
    entry_limits(run);
}

/// Every choice of 0 to 2 rows and columns, of up to 4 pointers from 0 to 3,
/// of up to 2 columns from 0 to 2, and of up to 2 values.
fn small(run: &mut dyn FnMut(Call)) {
    let pointers = lists(4, &[0, 1, 2, 3]);
    let columns = lists(2, &[0, 1, 2]);
    let values = lists(2, &[1.0, f64::NAN, f64::INFINITY]);
    for nrows in 0..=2 {
        for ncols in 0..=2 {
            for row_ptr in &pointers {
                for col_idx in &columns {
                    for values in &values {
                        run(validate(nrows, ncols, row_ptr, col_idx, values));
                    }
                }
            }
        }
    }
}

/// All lists of up to `longest` elements of `choice`.
pub fn lists<T: Copy>(longest: usize, choice: &[T]) -> Vec<Vec<T>> {
    let mut all = vec![vec![]];
    let mut start = 0;
    for _ in 0..longest {
        let end = all.len();
        for shorter in start..end {
            for &element in choice {
                let mut list = all[shorter].clone();
                list.push(element);
                all.push(list);
            }
        }
        start = end;
    }
    all
}

/// A special value first, in the middle and last.
fn special_values(run: &mut dyn FnMut(Call)) {
    for bits in FINITE.into_iter().chain(NOT_FINITE) {
        for place in 0..3 {
            let mut values = [1.0; 3];
            values[place] = f64::from_bits(bits);
            run(validate(2, 3, &[0, 2, 3], &[0, 2, 1], &values));
        }
    }
}

/// Sides at and past the limit, the rest right or wrong.
fn side_limits(run: &mut dyn FnMut(Call)) {
    let sides = [
        0,
        1,
        SIDE_LIMIT - 1,
        SIDE_LIMIT,
        SIDE_LIMIT + 1,
        u32::MAX as usize,
        usize::MAX - 1,
        usize::MAX,
    ];
    for nrows in sides {
        for ncols in sides {
            for row_ptr in [&[][..], &[0], &[0, 0], &[1], &[0, 1]] {
                for column in [0, 1, SIDE_LIMIT as u32 - 1, SIDE_LIMIT as u32, u32::MAX] {
                    for value in [1.0, f64::NAN] {
                        run(validate(nrows, ncols, row_ptr, &[column], &[value]));
                    }
                }
                run(validate(nrows, ncols, row_ptr, &[], &[]));
            }
        }
    }
    for nrows in [SIDE_LIMIT - 1, SIDE_LIMIT, SIDE_LIMIT + 1] {
        for pointers in [nrows, nrows + 1, nrows + 2] {
            many_pointers(nrows, pointers, run);
        }
    }
}

fn many_pointers(nrows: usize, pointers: usize, run: &mut dyn FnMut(Call)) {
    let ncols = SIDE_LIMIT;
    let mut row_ptr = vec![0; pointers];
    run(validate(nrows, ncols, &row_ptr, &[], &[]));
    // One entry, in the last row and the last column.
    row_ptr[pointers - 1] = 1;
    for column in [ncols as u32 - 1, ncols as u32] {
        run(validate(nrows, ncols, &row_ptr, &[column], &[1.0]));
    }
    // Pointers that fall only at the last step, or at the first.
    row_ptr[pointers - 2] = 2;
    run(validate(nrows, ncols, &row_ptr, &[0], &[1.0]));
    row_ptr[pointers - 2] = 0;
    row_ptr[1] = 1;
    run(validate(nrows, ncols, &row_ptr, &[0], &[1.0]));
}

/// Entry lists at and past the limit. Few, as they are large.
fn entry_limits(run: &mut dyn FnMut(Call)) {
    let over = ENTRY_LIMIT + 1;
    for (columns, values, last_pointer) in [
        (ENTRY_LIMIT, ENTRY_LIMIT, ENTRY_LIMIT),
        (ENTRY_LIMIT, ENTRY_LIMIT, ENTRY_LIMIT - 1),
        (ENTRY_LIMIT, ENTRY_LIMIT - 1, ENTRY_LIMIT),
        (ENTRY_LIMIT - 1, ENTRY_LIMIT, ENTRY_LIMIT),
        (over, over, over),
        (over, ENTRY_LIMIT, ENTRY_LIMIT),
        (ENTRY_LIMIT, over, ENTRY_LIMIT),
        (over, 0, 0),
        (0, over, 0),
    ] {
        run(Call::Validate(Matrix {
            nrows: 1,
            ncols: 1,
            row_ptr: vec![0, last_pointer as u32],
            col_idx: vec![0; columns],
            values: vec![1.0; values],
        }));
    }
    // Only the last column, then only the last value, is wrong.
    let mut matrix = Matrix {
        nrows: 1,
        ncols: 1,
        row_ptr: vec![0, ENTRY_LIMIT as u32],
        col_idx: vec![0; ENTRY_LIMIT],
        values: vec![1.0; ENTRY_LIMIT],
    };
    matrix.values[ENTRY_LIMIT - 1] = f64::NAN;
    run(Call::Validate(matrix.clone()));
    matrix.col_idx[ENTRY_LIMIT - 1] = 1;
    run(Call::Validate(matrix));
}
