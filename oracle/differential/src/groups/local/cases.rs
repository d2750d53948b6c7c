//! What the cases share.

use super::{Call, Gather, expected, rooms};
use crate::groups::csr32::Matrix;
use crate::groups::mask::Mask;
use crate::groups::topology::{Pair, Topology, matrix_of_rows, of_pairs, pairs};

/// With lists of just the needed lengths.
pub fn pattern(topology: &Topology, region: &Mask) -> Call {
    pattern_in(topology, region, &rooms::of_pattern(topology, region))
}

pub fn pattern_in(topology: &Topology, region: &Mask, lengths: &[usize]) -> Call {
    Call::Pattern {
        topology: topology.clone(),
        region: region.clone(),
        lent: rooms::pattern_lent(lengths),
    }
}

pub fn plan(topology: &Topology, matrix: &Matrix, region: &Mask) -> Call {
    let needed = rooms::of_plan(topology, matrix, region);
    plan_in(topology, matrix, region, &needed)
}

pub fn plan_in(topology: &Topology, matrix: &Matrix, region: &Mask, lengths: &[usize]) -> Call {
    Call::Plan {
        topology: topology.clone(),
        matrix: matrix.clone(),
        region: region.clone(),
        lent: rooms::plan_lent(lengths),
    }
}

/// With an output list of just the needed length.
pub fn gather(source_ptr: &[u32], source_indices: &[u32], values: &[f64]) -> Call {
    Call::Gather(gathering(source_ptr, source_indices, values))
}

pub fn gathering(source_ptr: &[u32], source_indices: &[u32], values: &[f64]) -> Gather {
    Gather {
        source_ptr: source_ptr.to_vec(),
        source_indices: source_indices.to_vec(),
        source_value_len: values.len(),
        values: values.to_vec(),
        out: rooms::values_lent(source_ptr.len().saturating_sub(1)),
    }
}

/// The gather of the matrix's values by the Rust's plan of its region.
pub fn gather_of(topology: &Topology, matrix: &Matrix, region: &Mask) -> Call {
    match expected::prepared(topology, matrix, region) {
        Ok(plan) => gather(&plan.source_ptr, &plan.source_indices, &matrix.values),
        Err(answer) => panic!("a right matrix and region: {answer:?}"),
    }
}

/// Pattern, plan and gather of a right matrix and region.
pub fn all_three(matrix: &Matrix, region: &Mask, run: &mut dyn FnMut(Call)) {
    let topology = topology_of(matrix);
    run(pattern(&topology, region));
    run(plan(&topology, matrix, region));
    run(gather_of(&topology, matrix, region));
}

/// Exactly the matrix's pairs.
pub fn topology_of(matrix: &Matrix) -> Topology {
    of_pairs(matrix.nrows, matrix.ncols, &pairs(matrix))
}

/// A square matrix of these columns by row, with values that differ and whose
/// sums depend on their order.
pub fn square(rows: &[Vec<u32>]) -> Matrix {
    valued(matrix_of_rows(rows.len(), rows))
}

/// A square matrix of these pairs, which may come in any order; the columns of
/// a row stay in theirs.
pub fn of_entries(side: usize, entries: &[Pair]) -> Matrix {
    let mut rows = vec![vec![]; side];
    for &(row, column) in entries {
        rows[row].push(column as u32);
    }
    square(&rows)
}

pub fn valued(mut matrix: Matrix) -> Matrix {
    for (place, value) in matrix.values.iter_mut().enumerate() {
        *value = spread(place);
    }
    matrix
}

/// Tenths of either sign, now and then -0.0 and a large one.
pub fn spread(place: usize) -> f64 {
    match place % 11 {
        7 => -0.0,
        9 => 1e17,
        _ if place % 3 == 1 => -0.1 * place as f64,
        _ => 0.1 * (place + 1) as f64,
    }
}
