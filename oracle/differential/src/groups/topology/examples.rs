//! The examples of document 01.

use super::cases::{matrix, side, topology};
use super::{Call, Operation, Question, Row, Topology, rooms};
use crate::answer::Answer;
use crate::expected::SIDE_LIMIT;
use crate::groups::csr32::Matrix;

pub fn examples() -> Vec<(Call, Answer)> {
    [of_matrices(), of_topologies(), of_rows()].concat()
}

/// The table's examples of 1 to 8, those of 25 and of a duplicate entry.
fn of_matrices() -> Vec<(Call, Answer)> {
    let mut all = vec![];
    for (number, matrix) in (1..).zip(refused_matrices()) {
        let needed = rooms::of_side(matrix.nrows, matrix.col_idx.len());
        let call = Call::SideFromCsr32(matrix.clone(), rooms::lent(&needed));
        all.push((call, Answer::refused(number)));
        let needed = rooms::of_both(&matrix);
        let call = Call::FromCsr32(matrix, rooms::both_lent(&needed));
        all.push((call, Answer::refused(number)));
    }
    let twice = matrix(2, &[vec![0, 0], vec![1]]);
    let needed = rooms::of_side(2, 3);
    let call = Call::SideFromCsr32(twice.clone(), rooms::lent(&needed));
    all.push((call, Answer::told_all(&[2, 2])));
    let needed = rooms::of_both(&twice);
    let call = Call::FromCsr32(twice.clone(), rooms::both_lent(&needed));
    all.push((call, Answer::told_all(&[2, 2, 2])));
    let call = Call::SideFromCsr32(twice.clone(), rooms::lent(&[3, 3, 2]));
    all.push((call, Answer::refused(25)));
    let short = [3, 3, 3, 3, 3, 3, 2, 3];
    let call = Call::FromCsr32(twice, rooms::both_lent(&short));
    all.push((call, Answer::refused(25)));
    all
}

fn refused_matrices() -> Vec<Matrix> {
    let made = |nrows, ncols, row_ptr: &[u32], col_idx: &[u32], values: &[f64]| Matrix {
        nrows,
        ncols,
        row_ptr: row_ptr.to_vec(),
        col_idx: col_idx.to_vec(),
        values: values.to_vec(),
    };
    vec![
        made(SIDE_LIMIT + 1, 1, &[0], &[], &[]),
        made(2, 1, &[0, 1], &[0], &[1.0]),
        made(1, 1, &[0, 1], &[0], &[]),
        made(1, 1, &[1, 1], &[0], &[1.0]),
        made(1, 1, &[0, 2], &[0], &[1.0]),
        made(2, 1, &[0, 2, 1], &[0], &[1.0]),
        made(1, 3, &[0, 1], &[3], &[1.0]),
        made(1, 1, &[0, 1], &[0], &[f64::INFINITY]),
    ]
}

/// A stored word 0, columns that are not the transpose, sizes that differ, and
/// the entries (0,1), (1,2) of 01's growths.
fn of_topologies() -> Vec<(Call, Answer)> {
    let chain = topology(3, 3, &[(0, 1), (1, 2)]);
    let mut empty_word = side(1, 1, &[(0, 0)]);
    empty_word.masks = vec![0];
    empty_word.structural_nnz = 0;
    let not_transposed = Topology {
        rows: chain.rows.clone(),
        columns: chain.rows.clone(),
    };
    let two = side(2, 2, &[]);
    let out = rooms::lent(&[4, 2, 2]);
    vec![
        (Call::SideValidate(empty_word.clone()), Answer::refused(9)),
        (Call::SideStats(empty_word), Answer::refused(9)),
        (Call::Validate(not_transposed.clone()), Answer::refused(9)),
        (Call::Stats(not_transposed), Answer::refused(9)),
        (Call::Validate(chain.clone()), Answer::done()),
        (
            Call::SideStats(chain.rows.clone()),
            Answer::told_all(&[
                3,
                3,
                2,
                2,
                40,
                1.0_f64.to_bits(),
                0.015625_f64.to_bits(),
                20.0_f64.to_bits(),
            ]),
        ),
        (
            Call::Stats(chain.clone()),
            Answer::told_all(&[3, 3, 2, 40, 40, 80, 40.0_f64.to_bits()]),
        ),
        (
            Call::Combine(Operation::Union, two, chain.rows, out),
            Answer::refused(22),
        ),
    ]
}

/// The word of 01's example, 22, as a row; `contains` past the end is no.
fn of_rows() -> Vec<(Call, Answer)> {
    let asked = |question| {
        let topology = topology(1, 64, &[(0, 1), (0, 2), (0, 4)]);
        let row = Row {
            columns: false,
            number: 0,
        };
        Call::OfRow(topology, row, question)
    };
    let column = Row {
        columns: true,
        number: 64,
    };
    let past = Call::OfRow(topology(1, 64, &[]), column, Question::Words);
    vec![
        (asked(Question::Words), Answer::told(1)),
        (asked(Question::Popcount), Answer::told(3)),
        (asked(Question::Word(0)), Answer::told_all(&[0, 22])),
        (asked(Question::Word(1)), Answer::none()),
        (asked(Question::Rank(2)), Answer::told(1)),
        (asked(Question::Rank(64)), Answer::told(3)),
        (asked(Question::Rank(65)), Answer::refused(13)),
        (asked(Question::Select(2)), Answer::told(4)),
        (asked(Question::Select(3)), Answer::none()),
        (asked(Question::Contains(4)), Answer::told(1)),
        (asked(Question::Contains(64)), Answer::told(0)),
        (past, Answer::refused(13)),
    ]
}
