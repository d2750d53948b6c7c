//! Random cases.

use super::values::{FINITE, NOT_FINITE};
use super::{Call, Matrix};
use crate::expected::SIDE_LIMIT;
use crate::rng::Rng;

/// A right matrix with up to three faults.
pub fn random(rng: &mut Rng) -> Call {
    let mut matrix = right(rng);
    for _ in 0..rng.pick(&[0, 1, 1, 1, 2, 2, 3]) {
        damage(rng, &mut matrix);
    }
    Call::Validate(matrix)
}

fn right(rng: &mut Rng) -> Matrix {
    let widest = rng.pick(&[1, 3, 6, 6, 6, 12, 12, 200]);
    let nrows = rng.below(widest + 1);
    let ncols = rng.below(widest + 1);
    let densest = if ncols == 0 { 0 } else { rng.below(4) };
    let mut matrix = Matrix {
        nrows,
        ncols,
        row_ptr: vec![0],
        col_idx: vec![],
        values: vec![],
    };
    for _ in 0..nrows {
        for _ in 0..rng.below(densest + 1) {
            matrix.col_idx.push(rng.below(ncols) as u32);
            matrix.values.push(finite(rng));
        }
        matrix.row_ptr.push(matrix.col_idx.len() as u32);
    }
    matrix
}

pub fn finite(rng: &mut Rng) -> f64 {
    match rng.below(3) {
        0 => f64::from_bits(rng.pick(&FINITE)),
        1 => rng.below(100) as f64 - 50.0,
        // The lowest exponent bit is cleared: never infinity or NaN.
        _ => f64::from_bits(rng.next() & !(1 << 52)),
    }
}

/// Plants the faults that the bits from the lowest on stand for: that of 1, of 2
/// and so on to 8. The matrix has some rows and two entries or more.
pub fn plant(chosen: u64, matrix: &mut Matrix) {
    for number in (1..=8)
        .filter(|number| chosen >> (number - 1) & 1 == 1)
        .rev()
    {
        let last = matrix.nrows;
        match number {
            1 => matrix.ncols = SIDE_LIMIT + 1,
            2 => matrix.row_ptr.push(0),
            3 => drop(matrix.values.pop()),
            4 => matrix.row_ptr[0] = 1,
            5 => matrix.row_ptr[last] += 1,
            6 => matrix.row_ptr[3] = 0,
            7 => matrix.col_idx[0] = matrix.ncols as u32,
            _ => matrix.values[1] = f64::NAN,
        }
    }
}

/// One fault; the number is the refusal it leads to if no other comes first.
/// Some are without effect, where the list is too short for them.
pub fn damage(rng: &mut Rng, matrix: &mut Matrix) {
    match rng.below(8) + 1 {
        1 => pass_limit(rng, matrix),
        2 => match rng.below(3) {
            0 => matrix.row_ptr.push(matrix.col_idx.len() as u32),
            1 => matrix.row_ptr.truncate(matrix.nrows.min(20)),
            _ => matrix.row_ptr.clear(),
        },
        3 => match rng.below(4) {
            0 => matrix.values.push(finite(rng)),
            1 => matrix.col_idx.push(0),
            2 => matrix.values.truncate(matrix.col_idx.len() / 2),
            _ => matrix.col_idx.truncate(matrix.values.len() / 2),
        },
        number @ 4..7 => damage_pointers(rng, number, &mut matrix.row_ptr),
        7 => {
            if !matrix.col_idx.is_empty() {
                let place = rng.below(matrix.col_idx.len());
                let past = matrix.ncols as u32;
                matrix.col_idx[place] = rng.pick(&[past, past.wrapping_add(1), u32::MAX]);
            }
        }
        _ => {
            if !matrix.values.is_empty() {
                let place = rng.below(matrix.values.len());
                matrix.values[place] = f64::from_bits(rng.pick(&NOT_FINITE));
            }
        }
    }
}

/// Makes a side as long as it may be, or longer.
fn pass_limit(rng: &mut Rng, matrix: &mut Matrix) {
    let over = SIDE_LIMIT + 1;
    let side = rng.pick(&[SIDE_LIMIT, over, over, 1 << 32, usize::MAX]);
    if rng.once_in(2) {
        matrix.nrows = side;
    } else {
        matrix.ncols = side;
    }
}

fn damage_pointers(rng: &mut Rng, number: usize, row_ptr: &mut [u32]) {
    match (number, row_ptr) {
        (4, [first, ..]) => *first = rng.pick(&[1, 2, u32::MAX]),
        (5, [.., last]) => {
            *last = rng.pick(&[0, last.wrapping_sub(1), last.wrapping_add(1), u32::MAX]);
        }
        (6, row_ptr) if row_ptr.len() > 2 => {
            let middle = 1 + rng.below(row_ptr.len() - 2);
            let next = row_ptr[middle + 1];
            row_ptr[middle] = rng.pick(&[next.saturating_add(1), u32::MAX, 0]);
        }
        _ => {}
    }
}
