//! What the cases share, and those at the edges.

use super::{Call, Lent, OPERATIONS, Question, Row, Side, Topology, faults, questions, rooms};
use crate::groups::csr32::Matrix;

/// A row and a column.
pub type Pair = (usize, usize);

/// Sides at the borders of words.
pub const BORDERS: [usize; 6] = [63, 64, 65, 127, 128, 129];

/// A side of these pairs, which may come in any order and more than once.
pub fn side(nrows: usize, ncols: usize, pairs: &[Pair]) -> Side {
    let mut pairs = pairs.to_vec();
    pairs.sort_unstable();
    pairs.dedup();
    let mut side = Side {
        nrows,
        ncols,
        row_word_ptr: vec![0],
        word_indices: vec![],
        masks: vec![],
        structural_nnz: pairs.len(),
    };
    let mut rest = pairs.as_slice();
    for row in 0..nrows {
        let own = rest.iter().take_while(|pair| pair.0 == row).count();
        for words in rest[..own].chunk_by(|a, b| a.1 / 64 == b.1 / 64) {
            side.word_indices.push((words[0].1 / 64) as u32);
            let bits = words.iter().map(|pair| 1 << (pair.1 % 64));
            side.masks.push(bits.sum());
        }
        side.row_word_ptr.push(side.masks.len() as u32);
        rest = &rest[own..];
    }
    side
}

pub fn turned(pairs: &[Pair]) -> Vec<Pair> {
    pairs.iter().map(|&(row, column)| (column, row)).collect()
}

pub fn topology(nrows: usize, ncols: usize, pairs: &[Pair]) -> Topology {
    Topology {
        rows: side(nrows, ncols, pairs),
        columns: side(ncols, nrows, &turned(pairs)),
    }
}

/// A matrix of so many columns with these columns in its rows, in this order.
pub fn matrix(ncols: usize, rows: &[Vec<u32>]) -> Matrix {
    let mut row_ptr = vec![0];
    let mut col_idx = vec![];
    for row in rows {
        col_idx.extend_from_slice(row);
        row_ptr.push(col_idx.len() as u32);
    }
    Matrix {
        nrows: rows.len(),
        ncols,
        row_ptr,
        values: vec![1.0; col_idx.len()],
        col_idx,
    }
}

/// Its entries in stored order; the matrix is a right one.
pub fn pairs(matrix: &Matrix) -> Vec<Pair> {
    let mut all = vec![];
    for (row, ends) in matrix.row_ptr.windows(2).enumerate() {
        let columns = &matrix.col_idx[ends[0] as usize..ends[1] as usize];
        all.extend(columns.iter().map(|&column| (row, column as usize)));
    }
    all
}

/// Calls small enough to be recorded.
pub fn edges(offer: &mut dyn FnMut(Call)) {
    for matrix in edge_matrices() {
        questions::of_matrix(&matrix, offer);
        let pairs = pairs(&matrix);
        let topology = topology(matrix.nrows, matrix.ncols, &pairs);
        questions::of_side(&topology.rows, &topology.rows, offer);
        questions::of_topology(&topology, offer);
        for columns in [false, true] {
            for number in [0, 2] {
                edge_row(&topology, Row { columns, number }, offer);
            }
        }
    }
    let right = topology(3, 130, &[(0, 0), (0, 63), (0, 64), (1, 129), (1, 5)]);
    for rows in faults::broken(&right.rows) {
        offer(Call::SideValidate(rows.clone()));
        let columns = right.columns.clone();
        offer(Call::Validate(Topology { rows, columns }));
    }
    for columns in faults::broken(&right.columns) {
        let rows = right.rows.clone();
        offer(Call::Validate(Topology { rows, columns }));
    }
    for other in faults::disagreeing(&right) {
        offer(Call::Validate(other));
    }
    edge_operations(offer);
}

fn edge_matrices() -> Vec<Matrix> {
    vec![
        matrix(130, &[vec![64, 0, 129, 64], vec![], vec![5, 129, 63, 1]]),
        matrix(3, &[vec![1], vec![2], vec![]]),
        matrix(0, &[]),
        matrix(0, &[vec![], vec![]]),
        matrix(65, &[vec![64, 64], vec![64, 63], vec![0, 64, 0]]),
        matrix(130, &[vec![128, 127, 64, 63, 1, 0]]),
    ]
}

fn edge_row(topology: &Topology, row: Row, offer: &mut dyn FnMut(Call)) {
    for question in [
        Question::Words,
        Question::Popcount,
        Question::Contains(0),
        Question::Contains(64),
        Question::Contains(u64::MAX),
        Question::Rank(64),
        Question::Rank(65),
        Question::Rank(130),
        Question::Rank(131),
        Question::Select(0),
        Question::Select(2),
        Question::Select(u64::MAX),
        Question::Word(0),
        Question::Word(1),
        Question::Word(u64::MAX),
    ] {
        offer(Call::OfRow(topology.clone(), row, question));
    }
}

/// Sides that share words and pairs, and two that differ in a size.
fn edge_operations(offer: &mut dyn FnMut(Call)) {
    let a = side(3, 130, &[(0, 0), (0, 64), (1, 1), (1, 129), (2, 65)]);
    let b = side(3, 130, &[(0, 0), (0, 1), (0, 129), (1, 129), (2, 64)]);
    for operation in OPERATIONS {
        for other in [&b, &a, &side(4, 130, &[]), &side(3, 129, &[])] {
            let needed = rooms::of_side(3, a.masks.len() + other.masks.len());
            for lengths in rooms::near(&needed) {
                let out: Lent = rooms::lent(&lengths);
                offer(Call::Combine(operation, a.clone(), other.clone(), out));
            }
        }
    }
}
