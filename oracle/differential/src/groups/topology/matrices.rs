//! Matrices in the orders in which callers store a row's columns.

use super::cases::matrix;
use crate::groups::csr32::Matrix;
use crate::rng::Rng;

#[derive(Clone, Copy)]
pub enum Order {
    Rising,
    Falling,
    Shuffled,
    /// Rising, each column twice, one after the other.
    Doubled,
    /// Rising, then the same once more, falling.
    ThereAndBack,
    /// Words in falling order, the columns of a word in rising order.
    FallingWords,
    /// A column of one word, then one of another, back and forth.
    Alternating,
}

pub const ORDERS: [Order; 7] = [
    Order::Rising,
    Order::Falling,
    Order::Shuffled,
    Order::Doubled,
    Order::ThereAndBack,
    Order::FallingWords,
    Order::Alternating,
];

/// A right matrix with up to `densest` entries in a row, some rows empty.
pub fn ordered(rng: &mut Rng, order: Order, nrows: usize, ncols: usize, densest: usize) -> Matrix {
    let rows: Vec<Vec<u32>> = (0..nrows)
        .map(|_| {
            let count = if rng.once_in(4) { 0 } else { densest };
            row(rng, order, ncols, count)
        })
        .collect();
    matrix(ncols, &rows)
}

/// The columns of one row.
pub fn row(rng: &mut Rng, order: Order, ncols: usize, densest: usize) -> Vec<u32> {
    if ncols == 0 {
        return vec![];
    }
    let count = rng.below(densest + 1);
    let mut columns: Vec<u32> = (0..count).map(|_| column(rng, ncols)).collect();
    columns.sort_unstable();
    match order {
        Order::Rising => {}
        Order::Falling => columns.reverse(),
        Order::Shuffled => rng.shuffle(&mut columns),
        Order::Doubled => columns = columns.iter().flat_map(|&column| [column; 2]).collect(),
        Order::ThereAndBack => columns.extend(columns.clone().iter().rev()),
        Order::FallingWords => columns.sort_by_key(|column| u32::MAX - column / 64),
        Order::Alternating => {
            let back = columns.clone().into_iter().rev();
            columns = columns
                .iter()
                .copied()
                .zip(back)
                .flat_map(<[u32; 2]>::from)
                .collect();
        }
    }
    columns
}

/// Any column, or one at a border of words.
fn column(rng: &mut Rng, ncols: usize) -> u32 {
    let column = match rng.below(4) {
        0 => 64 * rng.below(ncols.div_ceil(64)),
        1 => 64 * rng.below(ncols.div_ceil(64)) + 63,
        2 => ncols - 1,
        _ => rng.below(ncols),
    };
    column.min(ncols - 1) as u32
}
