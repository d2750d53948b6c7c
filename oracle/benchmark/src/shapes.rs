//! The matrices and regions that are measured. All are the same in every run.

use hybit_original::{Csr32Matrix, DofMask};

use crate::bench::Shape;

pub const BANDED: &str = "banded";
pub const RANDOM: &str = "random";
/// As random, but in no order within a row, and a column may come twice.
pub const UNORDERED: &str = "random, unordered";
/// 16 rows hold all entries, in each of three orders.
pub const LONG: [&str; 3] = [
    "long rows, rising",
    "long rows, falling",
    "long rows, shuffled",
];

pub fn matrix(shape: Shape, side: usize) -> Csr32Matrix {
    match shape.columns {
        BANDED => banded(side, shape.entries),
        RANDOM => random(side, shape.entries),
        UNORDERED => unordered(side, shape.entries),
        order => long_rows(side, order),
    }
}

/// So many columns next to each other in every row, at the diagonal: each peak
/// overlaps those that stand near it.
fn banded(rows: usize, entries: usize) -> Csr32Matrix {
    let columns = (0..rows).flat_map(|row| {
        let start = row.saturating_sub(entries / 2).min(rows - entries);
        start..start + entries
    });
    square(rows, entries, columns.map(|column| column as u32).collect())
}

/// Columns anywhere, no two of a row alike, in rising order.
fn random(rows: usize, entries: usize) -> Csr32Matrix {
    let mut chance = Chance(1);
    let mut columns = Vec::with_capacity(rows * entries);
    let mut row = vec![];
    for _ in 0..rows {
        while row.len() < entries {
            row.push(chance.below(rows) as u32);
            row.sort_unstable();
            row.dedup();
        }
        columns.append(&mut row);
    }
    square(rows, entries, columns)
}

fn unordered(rows: usize, entries: usize) -> Csr32Matrix {
    let mut chance = Chance(1);
    let columns = (0..rows * entries).map(|_| chance.below(rows) as u32);
    square(rows, entries, columns.collect())
}

/// As many entries as rows, all in the first 16; columns at equal distances.
fn long_rows(side: usize, order: &str) -> Csr32Matrix {
    const FULL: usize = 16;
    let entries = side / FULL;
    let mut chance = Chance(1);
    let mut columns = vec![];
    for row in 0..FULL {
        let mut own: Vec<u32> = (0..entries)
            .map(|place| (place * FULL + row) as u32)
            .collect();
        if order == LONG[1] {
            own.reverse();
        } else if order == LONG[2] {
            chance.shuffle(&mut own);
        }
        columns.extend(own);
    }
    let pointers = (0..=side).map(|row| (row.min(FULL) * entries) as u32);
    let values = vec![1.0; columns.len()];
    Csr32Matrix::new(side, side, pointers.collect(), columns, values).expect("an accepted matrix")
}

fn square(rows: usize, entries: usize, columns: Vec<u32>) -> Csr32Matrix {
    let pointers = (0..=rows).map(|row| (row * entries) as u32).collect();
    let values = vec![1.0; columns.len()];
    Csr32Matrix::new(rows, rows, pointers, columns, values).expect("an accepted matrix")
}

/// A small random generator.
pub struct Chance(pub u64);

impl Chance {
    /// It comes back to a number only after 2^64 steps.
    pub fn next(&mut self) -> u64 {
        self.0 = self
            .0
            .wrapping_mul(6_364_136_223_846_793_005)
            .wrapping_add(1);
        self.0
    }

    pub fn below(&mut self, bound: usize) -> usize {
        (self.next() >> 33) as usize % bound
    }

    pub fn shuffle<T>(&mut self, list: &mut [T]) {
        for place in (1..list.len()).rev() {
            list.swap(place, self.below(place + 1));
        }
    }
}

/// One node in the middle.
pub fn one_seed(side: usize) -> DofMask {
    DofMask::from_indices(side, &[side / 2]).expect("a node")
}

/// One node in so many, at equal distances.
pub fn one_in(side: usize, distance: usize, first: usize) -> DofMask {
    let nodes: Vec<usize> = (first..side).step_by(distance).collect();
    DofMask::from_indices(side, &nodes).expect("nodes")
}

/// So many nodes in a hundred, in runs of 30.
pub fn region(side: usize, percent: usize) -> DofMask {
    const RUN: usize = 30;
    let nodes: Vec<usize> = (0..side)
        .filter(|node| node % (RUN * 100 / percent) < RUN)
        .collect();
    DofMask::from_indices(side, &nodes).expect("nodes")
}

/// In the name of an input whose nodes follow no order, unlike those of a
/// chromatogram's region.
pub const SCATTERED: &str = "% of the nodes in no order";

/// So many nodes in a hundred, in no order.
pub fn scattered(side: usize, percent: usize) -> DofMask {
    let mut chance = Chance(1);
    let nodes: Vec<usize> = (0..side).filter(|_| chance.below(100) < percent).collect();
    DofMask::from_indices(side, &nodes).expect("nodes")
}

/// The values differ, so that a gather shows its sources.
pub fn numbered(matrix: &Csr32Matrix) -> Vec<f64> {
    (0..matrix.nnz()).map(|source| source as f64).collect()
}
