//! How long lent lists are, and how long they must be.

use super::{BothLent, Call, Lent};
use crate::expected::SIDE_LIMIT;
use crate::groups::csr32::Matrix;

/// The lengths that a side's lists need: pointers, word numbers, masks.
pub fn of_side(rows: usize, words: usize) -> Vec<usize> {
    vec![pointers(rows), words, words]
}

/// Those of both sides, then of the scratch.
pub fn of_both(matrix: &Matrix) -> Vec<usize> {
    let entries = matrix.col_idx.len();
    [
        of_side(matrix.nrows, entries),
        of_side(matrix.ncols, entries),
        vec![pointers(matrix.ncols), entries],
    ]
    .concat()
}

/// Of a side over the limit only some, since the call is refused before it
/// writes.
fn pointers(rows: usize) -> usize {
    if rows > SIDE_LIMIT { 3 } else { rows + 1 }
}

/// As needed; each list alone one short, empty, one and five longer; all of
/// them longer; all of them empty.
pub fn near(needed: &[usize]) -> Vec<Vec<usize>> {
    let mut all = vec![
        needed.to_vec(),
        needed.iter().map(|length| length + 3).collect(),
        vec![0; needed.len()],
    ];
    for place in 0..needed.len() {
        let right = needed[place];
        for length in [right.saturating_sub(1), 0, right + 1, right + 5] {
            if length != right {
                let mut lengths = needed.to_vec();
                lengths[place] = length;
                all.push(lengths);
            }
        }
    }
    all
}

/// Lists of three lengths.
pub fn lent(lengths: &[usize]) -> Lent {
    Lent {
        row_word_ptr: vec![77; lengths[0]],
        word_indices: vec![78; lengths[1]],
        masks: vec![79; lengths[2]],
    }
}

/// Lists of eight lengths.
pub fn both_lent(lengths: &[usize]) -> BothLent {
    BothLent {
        rows: lent(&lengths[..3]),
        columns: lent(&lengths[3..6]),
        starts: vec![80; lengths[6]],
        order: vec![81; lengths[7]],
    }
}

/// The place of the first list that is too short.
pub fn first_short(call: &Call) -> u64 {
    let (needed, lent) = match call {
        Call::SideFromCsr32(matrix, out) => {
            (of_side(matrix.nrows, matrix.col_idx.len()), out.lengths())
        }
        Call::Combine(_, a, b, out) => (
            of_side(a.nrows, a.masks.len() + b.masks.len()),
            out.lengths(),
        ),
        Call::FromCsr32(matrix, out) => (of_both(matrix), out.lengths()),
        _ => return 0,
    };
    let long = needed.iter().zip(lent);
    long.take_while(|(needed, lent)| lent >= needed).count() as u64
}

impl Lent {
    fn lengths(&self) -> Vec<usize> {
        vec![
            self.row_word_ptr.len(),
            self.word_indices.len(),
            self.masks.len(),
        ]
    }
}

impl BothLent {
    fn lengths(&self) -> Vec<usize> {
        [
            self.rows.lengths(),
            self.columns.lengths(),
            vec![self.starts.len(), self.order.len()],
        ]
        .concat()
    }
}
