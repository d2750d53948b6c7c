//! The calls on one matrix, side or topology.

use super::{Call, OPERATIONS, Operation, Question, Row, Side, Topology, rooms};
use crate::groups::csr32::Matrix;
use crate::rng::Rng;

/// Numbers far past every topology.
pub const FAR: [u64; 5] = [1 << 20, 1 << 32, (1 << 32) + 1, 1 << 63, u64::MAX];

/// Both ways of building, with lists of just the needed lengths.
pub fn of_matrix(matrix: &Matrix, run: &mut dyn FnMut(Call)) {
    let needed = rooms::of_side(matrix.nrows, matrix.col_idx.len());
    run(Call::SideFromCsr32(matrix.clone(), rooms::lent(&needed)));
    let needed = rooms::of_both(matrix);
    run(Call::FromCsr32(matrix.clone(), rooms::both_lent(&needed)));
}

/// The same with lists of many lengths, enough or not.
pub fn of_matrix_in_rooms(matrix: &Matrix, run: &mut dyn FnMut(Call)) {
    let needed = rooms::of_side(matrix.nrows, matrix.col_idx.len());
    for lengths in rooms::near(&needed) {
        run(Call::SideFromCsr32(matrix.clone(), rooms::lent(&lengths)));
    }
    let needed = rooms::of_both(matrix);
    for lengths in rooms::near(&needed) {
        run(Call::FromCsr32(matrix.clone(), rooms::both_lent(&lengths)));
    }
}

/// Every call on a side, as the first and as the second of two, too.
pub fn of_side(side: &Side, other: &Side, run: &mut dyn FnMut(Call)) {
    run(Call::SideValidate(side.clone()));
    run(Call::SideStats(side.clone()));
    for operation in OPERATIONS {
        combine(operation, side, other, run);
        combine(operation, other, side, run);
    }
}

/// One call on a side, another at each turn.
pub fn one_of_side(side: &Side, other: &Side, turn: usize, run: &mut dyn FnMut(Call)) {
    let operation = OPERATIONS[turn / 4 % 4];
    match turn % 4 {
        0 => run(Call::SideValidate(side.clone())),
        1 => run(Call::SideStats(side.clone())),
        2 => combine(operation, side, other, run),
        _ => combine(operation, other, side, run),
    }
}

pub fn combine(operation: Operation, a: &Side, b: &Side, run: &mut dyn FnMut(Call)) {
    let out = rooms::lent(&combined_room(a, b));
    run(Call::Combine(operation, a.clone(), b.clone(), out));
}

/// The same with lists of many lengths, enough or not.
pub fn combine_in_rooms(operation: Operation, a: &Side, b: &Side, run: &mut dyn FnMut(Call)) {
    for lengths in rooms::near(&combined_room(a, b)) {
        let out = rooms::lent(&lengths);
        run(Call::Combine(operation, a.clone(), b.clone(), out));
    }
}

pub fn combined_room(a: &Side, b: &Side) -> Vec<usize> {
    rooms::of_side(a.nrows, a.masks.len() + b.masks.len())
}

/// Every call on a topology; of rows the first and the last of either side.
pub fn of_topology(topology: &Topology, run: &mut dyn FnMut(Call)) {
    for turn in 0..2 + 2 * 6 {
        one_of_topology(topology, turn, run);
    }
}

/// One call on a topology, another at each turn.
pub fn one_of_topology(topology: &Topology, turn: usize, run: &mut dyn FnMut(Call)) {
    let question = match turn % 14 {
        0 => return run(Call::Validate(topology.clone())),
        1 => return run(Call::Stats(topology.clone())),
        2 | 3 => Question::Words,
        4 | 5 => Question::Popcount,
        6 | 7 => Question::Contains(0),
        8 | 9 => Question::Rank(1),
        10 | 11 => Question::Select(0),
        _ => Question::Word(0),
    };
    let columns = turn % 2 == 1;
    let last = topology.side(columns).nrows.wrapping_sub(1) as u64;
    let number = if turn.is_multiple_of(3) { last } else { 0 };
    run(Call::OfRow(
        topology.clone(),
        Row { columns, number },
        question,
    ));
}

/// Every row of either side, the first past the end and far ones, with every
/// column, pair and word, those past the end and far ones.
pub fn of_all_rows(topology: &Topology, run: &mut dyn FnMut(Call)) {
    for columns in [false, true] {
        let side = topology.side(columns);
        let cols: Vec<u64> = (0..=side.ncols as u64 + 1).chain(FAR).collect();
        for number in (0..=side.nrows as u64).chain(FAR) {
            of_row(topology, Row { columns, number }, &cols, run);
        }
    }
}

/// The same for a larger one: some rows, and the columns near words' borders.
pub fn of_some_rows(rng: &mut Rng, topology: &Topology, run: &mut dyn FnMut(Call)) {
    for columns in [false, true] {
        let side = topology.side(columns);
        let last = side.nrows as u64;
        let inside = rng.below(side.nrows + 1) as u64;
        for number in [0, 1, inside, last.wrapping_sub(1), last, u64::MAX] {
            let cols = near_words(rng, side);
            of_row(topology, Row { columns, number }, &cols, run);
        }
    }
}

/// Two columns of each word, and the sides' last.
fn near_words(rng: &mut Rng, side: &Side) -> Vec<u64> {
    let last = side.ncols as u64;
    let mut cols: Vec<u64> = (0..last).step_by(64).collect();
    cols.extend((0..last.div_ceil(64)).map(|word| 64 * word + rng.below(64) as u64));
    cols.extend([63, last.wrapping_sub(1), last, last + 1, u64::MAX]);
    cols
}

/// Every question about a row.
fn of_row(topology: &Topology, row: Row, cols: &[u64], run: &mut dyn FnMut(Call)) {
    let mut ask = |question| run(Call::OfRow(topology.clone(), row, question));
    ask(Question::Words);
    ask(Question::Popcount);
    for &col in cols {
        ask(Question::Contains(col));
        ask(Question::Rank(col));
    }
    let masks = masks(topology.side(row.columns), row.number);
    let count = masks.iter().map(|mask| u64::from(mask.count_ones())).sum();
    for ordinal in (0..=count).chain([count + 1]).chain(FAR) {
        ask(Question::Select(ordinal));
    }
    for k in (0..=masks.len() as u64 + 1).chain(FAR) {
        ask(Question::Word(k));
    }
}

/// The masks of a row of a right side, none past the end.
fn masks(side: &Side, number: u64) -> &[u64] {
    if number >= side.nrows as u64 {
        return &[];
    }
    let ends = &side.row_word_ptr[number as usize..number as usize + 2];
    &side.masks[ends[0] as usize..ends[1] as usize]
}
