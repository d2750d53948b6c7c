//! At the limits and past them. Few, as they are large.

use super::cases::{matrix, side, topology};
use super::{Call, OPERATIONS, Question, Row, Side, Topology, questions, rooms};
use crate::expected::{ENTRY_LIMIT, SIDE_LIMIT};
use crate::groups::csr32::Matrix;
use crate::rng::Rng;

pub fn run(run: &mut dyn FnMut(Call)) {
    matrix_sides(run);
    matrix_entries(run);
    longest_rows(run);
    sides(run);
    pair_counts(run);
    most_pairs(run);
    past_in_answer(run);
    word_counts(run);
}

/// A matrix with one entry in its last row and column, or with none.
fn one_entry(nrows: usize, ncols: usize) -> Matrix {
    let mut row_ptr = vec![0; nrows + 1];
    row_ptr[nrows] = 1;
    Matrix {
        nrows,
        ncols,
        row_ptr,
        col_idx: vec![ncols as u32 - 1],
        values: vec![1.0],
    }
}

fn matrix_sides(run: &mut dyn FnMut(Call)) {
    for side in [SIDE_LIMIT - 1, SIDE_LIMIT, SIDE_LIMIT + 1] {
        questions::of_matrix(&one_entry(side, 2), run);
        questions::of_matrix(&one_entry(2, side), run);
    }
    let largest = one_entry(SIDE_LIMIT, SIDE_LIMIT);
    questions::of_matrix(&largest, run);
    // One pointer too few in the longest lists.
    let needed = rooms::of_both(&largest);
    for place in [0, 3, 6] {
        let mut lengths = needed.clone();
        lengths[place] -= 1;
        run(Call::FromCsr32(largest.clone(), rooms::both_lent(&lengths)));
    }
    for far in [1 << 32, usize::MAX - 1, usize::MAX] {
        for (nrows, ncols) in [(far, 1), (1, far), (far, far)] {
            for row_ptr in [vec![], vec![0], vec![0, 0]] {
                let matrix = Matrix {
                    nrows,
                    ncols,
                    row_ptr,
                    col_idx: vec![],
                    values: vec![],
                };
                questions::of_matrix(&matrix, run);
            }
        }
    }
}

/// So many entries that no list of words is lent: at the limit the lists are
/// too short (25), past it the matrix is too large (1).
fn matrix_entries(run: &mut dyn FnMut(Call)) {
    let (most, over) = (ENTRY_LIMIT, ENTRY_LIMIT + 1);
    for (columns, values, both) in [
        (most, most, false),
        (most, most, true),
        (over, over, false),
        (over, 0, false),
        (most, over, true),
    ] {
        let matrix = Matrix {
            nrows: 1,
            ncols: 1,
            row_ptr: vec![0, columns as u32],
            col_idx: vec![0; columns],
            values: vec![1.0; values],
        };
        if both {
            let lengths = [2, 0, 0, 2, 0, 0, 2, 0];
            run(Call::FromCsr32(matrix, rooms::both_lent(&lengths)));
        } else {
            run(Call::SideFromCsr32(matrix, rooms::lent(&[2, 0, 0])));
        }
    }
}

/// An entry in every word that a row can have, in falling and in no order, and
/// one entry 70,000 times.
fn longest_rows(run: &mut dyn FnMut(Call)) {
    let falling: Vec<u32> = (0..SIDE_LIMIT as u32).step_by(64).rev().collect();
    let mut shuffled = [falling.as_slice(), &falling[..1_000]].concat();
    Rng::new(8).shuffle(&mut shuffled);
    let again = [vec![0, 65], vec![64; 70_000], vec![65, 0]].concat();
    questions::of_matrix(&matrix(SIDE_LIMIT, &[falling, vec![5], shuffled]), run);
    questions::of_matrix(&matrix(66, &[again, vec![1]]), run);
}

/// Sides at and past the limit, with pairs in the last row and column.
fn sides(run: &mut dyn FnMut(Call)) {
    for length in [SIDE_LIMIT, SIDE_LIMIT + 1] {
        let pairs = [(0, 0), (0, length - 1), (1, length - 1)];
        let wide = topology(2, length, &pairs);
        for side in [&wide.rows, &wide.columns] {
            run(Call::SideValidate(side.clone()));
            questions::combine(OPERATIONS[3], side, side, run);
        }
        last_rows(&wide, run);
        let other = topology(2, length, &[(0, 0), (0, length - 2), (1, length - 1)]);
        run(Call::Validate(Topology {
            rows: wide.rows.clone(),
            columns: other.columns,
        }));
        run(Call::Validate(wide.clone()));
        run(Call::Validate(Topology {
            rows: wide.columns,
            columns: wide.rows,
        }));
    }
    for far in [SIDE_LIMIT + 1, 1 << 32, usize::MAX - 1, usize::MAX] {
        for (nrows, ncols) in [(far, 1), (1, far), (far, far)] {
            for row_word_ptr in [vec![], vec![0], vec![0, 0]] {
                let wrong = Side {
                    nrows,
                    ncols,
                    row_word_ptr,
                    ..side(0, 0, &[])
                };
                let right = side(1, 1, &[]);
                questions::of_side(&wrong, &right, run);
                both_ways(&wrong, &right, run);
            }
        }
    }
}

/// The last row of either side, and the first past it.
fn last_rows(wide: &Topology, run: &mut dyn FnMut(Call)) {
    let length = wide.rows.ncols as u64;
    for (columns, number, question) in [
        (false, 1, Question::Contains(length - 1)),
        (false, 1, Question::Contains(length)),
        (false, 1, Question::Rank(length)),
        (false, 1, Question::Rank(length + 1)),
        (false, 0, Question::Select(1)),
        (true, length - 1, Question::Select(1)),
        (true, length - 1, Question::Word(0)),
        (true, length, Question::Words),
    ] {
        let row = Row { columns, number };
        run(Call::OfRow(wide.clone(), row, question));
    }
}

/// A side as the rows and as the columns.
fn both_ways(one: &Side, other: &Side, run: &mut dyn FnMut(Call)) {
    let (rows, columns) = (one.clone(), other.clone());
    questions::of_topology(&Topology { rows, columns }, run);
    let (rows, columns) = (other.clone(), one.clone());
    questions::of_topology(&Topology { rows, columns }, run);
}

/// Pair counts that no list bears out: 9 up to the limit, past it 1.
fn pair_counts(run: &mut dyn FnMut(Call)) {
    let right = side(1, 1, &[(0, 0)]);
    for structural_nnz in [
        ENTRY_LIMIT - 1,
        ENTRY_LIMIT,
        ENTRY_LIMIT + 1,
        1 << 32 | 1,
        1 << 63 | 1,
        usize::MAX,
    ] {
        let wrong = Side {
            structural_nnz,
            ..right.clone()
        };
        questions::of_side(&wrong, &right, run);
        both_ways(&wrong, &right, run);
    }
}

/// As many pairs as there may be, and one more.
fn most_pairs(run: &mut dyn FnMut(Call)) {
    let mut full = full_rows(16, SIDE_LIMIT);
    let columns = full_rows(SIDE_LIMIT, 16);
    let rows = full.clone();
    run(Call::SideStats(full.clone()));
    run(Call::Stats(Topology { rows, columns }));
    full.nrows += 1;
    full.masks.push(1);
    full.word_indices.push(0);
    full.row_word_ptr.push(full.masks.len() as u32);
    full.structural_nnz += 1;
    run(Call::SideValidate(full.clone()));
    full.structural_nnz -= 1;
    run(Call::SideValidate(full));
}

/// Two sides of as many pairs as there may be, in rows of their own: the limit
/// is one of what is handed in, and the answer has twice as many.
fn past_in_answer(run: &mut dyn FnMut(Call)) {
    let mut a = full_rows(16, SIDE_LIMIT);
    let mut b = a.clone();
    a.nrows = 32;
    a.row_word_ptr.resize(33, a.masks.len() as u32);
    b.nrows = 32;
    b.row_word_ptr.splice(0..0, [0; 16]);
    for operation in OPERATIONS {
        questions::combine(operation, &a, &b, run);
    }
}

/// Every column in every row.
fn full_rows(nrows: usize, ncols: usize) -> Side {
    let words = ncols.div_ceil(64);
    let last = u64::MAX >> (64 * words - ncols);
    let mut row = vec![u64::MAX; words];
    row[words - 1] = last;
    Side {
        nrows,
        ncols,
        row_word_ptr: (0..=nrows).map(|row| (row * words) as u32).collect(),
        word_indices: (0..nrows).flat_map(|_| 0..words as u32).collect(),
        masks: row.repeat(nrows),
        structural_nnz: nrows * ncols,
    }
}

/// As many words as there may be, and one more in either list or both.
fn word_counts(run: &mut dyn FnMut(Call)) {
    let words = SIDE_LIMIT / 64;
    let nrows = ENTRY_LIMIT / words;
    let mut most = Side {
        nrows,
        ncols: SIDE_LIMIT,
        row_word_ptr: (0..=nrows).map(|row| (row * words) as u32).collect(),
        word_indices: (0..nrows).flat_map(|_| 0..words as u32).collect(),
        masks: vec![1; ENTRY_LIMIT],
        structural_nnz: ENTRY_LIMIT,
    };
    run(Call::SideValidate(most.clone()));
    let right = side(nrows, SIDE_LIMIT, &[]);
    // The answer's lists would be as long; they are not lent, so 25.
    let nothing = rooms::lent(&[nrows + 1, 0, 0]);
    run(Call::Combine(OPERATIONS[0], right, most.clone(), nothing));
    most.masks.push(1);
    run(Call::SideValidate(most.clone()));
    most.word_indices.push(0);
    run(Call::SideValidate(most.clone()));
    most.masks.pop();
    run(Call::SideValidate(most));
}
