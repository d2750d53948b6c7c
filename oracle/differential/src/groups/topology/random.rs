//! Random cases.

use super::cases::{BORDERS, pairs, side, topology};
use super::matrices::{ORDERS, ordered};
use super::questions::FAR;
use super::{BothLent, Call, Lent, OPERATIONS, Question, Row, Side, Topology, faults, rooms};
use crate::expected::{ENTRY_LIMIT, SIDE_LIMIT};
use crate::groups::csr32::{Matrix, damage};
use crate::rng::Rng;

/// One call at random; a third of the matrices and topologies are faulty.
pub fn random(rng: &mut Rng) -> Call {
    match rng.below(16) {
        0..3 => from_matrix(rng),
        3 => Call::SideValidate(random_side(rng)),
        4 => Call::SideStats(random_side(rng)),
        5..8 => combine(rng),
        8 => Call::Validate(random_topology(rng)),
        9 => Call::Stats(random_topology(rng)),
        _ => of_row(rng),
    }
}

fn length(rng: &mut Rng) -> usize {
    match rng.below(1_000) {
        0 => rng.below(2_600),
        1..60 => rng.pick(&BORDERS),
        60..100 => 0,
        100..130 => rng.below(200),
        _ => 1 + rng.below(7),
    }
}

/// Either side is short, or both have few words.
fn right_matrix(rng: &mut Rng) -> Matrix {
    let order = rng.pick(&ORDERS);
    let nrows = length(rng);
    let ncols = match rng.below(6) {
        0 => rng.pick(&[63, 64, 65, 66, 127, 128, 129, 130]),
        _ => length(rng),
    };
    let densest = if rng.once_in(30) { 60 } else { rng.below(5) };
    ordered(rng, order, nrows, ncols, densest)
}

fn random_matrix(rng: &mut Rng) -> Matrix {
    let mut matrix = right_matrix(rng);
    for _ in 0..rng.pick(&[0, 0, 0, 0, 1, 2]) {
        damage(rng, &mut matrix);
    }
    // At the limit it could be a right side, and then a slow one.
    for side in [&mut matrix.nrows, &mut matrix.ncols] {
        if *side == SIDE_LIMIT {
            *side += 1;
        }
    }
    matrix
}

fn from_matrix(rng: &mut Rng) -> Call {
    let matrix = random_matrix(rng);
    if rng.once_in(3) {
        let needed = rooms::of_side(matrix.nrows, matrix.col_idx.len());
        return Call::SideFromCsr32(matrix, lent(rng, &needed));
    }
    let needed = rooms::of_both(&matrix);
    let out = BothLent {
        rows: lent(rng, &needed[..3]),
        columns: lent(rng, &needed[3..6]),
        starts: narrow(rng, needed[6]),
        order: narrow(rng, needed[7]),
    };
    Call::FromCsr32(matrix, out)
}

/// Lists with some content, mostly long enough.
fn lent(rng: &mut Rng, needed: &[usize]) -> Lent {
    Lent {
        row_word_ptr: narrow(rng, needed[0]),
        word_indices: narrow(rng, needed[1]),
        masks: room(rng, needed[2]),
    }
}

fn narrow(rng: &mut Rng, needed: usize) -> Vec<u32> {
    let wide = room(rng, needed).into_iter();
    wide.map(|element| element as u32).collect()
}

/// With as many as eight lists most must be long enough.
fn room(rng: &mut Rng, needed: usize) -> Vec<u64> {
    match rng.below(8) {
        0 => rng.room(needed),
        1 => rng.words(needed + 2),
        _ => rng.words(needed),
    }
}

fn right_side(rng: &mut Rng) -> Side {
    let matrix = right_matrix(rng);
    side(matrix.nrows, matrix.ncols, &pairs(&matrix))
}

fn random_side(rng: &mut Rng) -> Side {
    let mut side = right_side(rng);
    for _ in 0..rng.pick(&[0, 0, 0, 1, 1, 2]) {
        break_side(rng, &mut side);
    }
    side
}

/// One change of a side; some leave it right, or without effect where a list
/// is too short for them.
pub fn break_side(rng: &mut Rng, side: &mut Side) {
    match rng.below(9) {
        0 => {
            let length = side.row_word_ptr.len();
            let last = side.row_word_ptr.last().copied().unwrap_or_default();
            let length = rng.pick(&[0, length.saturating_sub(1), length + 1]);
            side.row_word_ptr.resize(length, last);
        }
        1 => break_pointer(rng, side),
        2 => match rng.below(4) {
            0 => drop(side.masks.pop()),
            1 => drop(side.word_indices.pop()),
            2 => side.masks.push(rng.word()),
            _ => side.word_indices.push(rng.below(4) as u32),
        },
        3..6 => break_word(rng, side),
        6 => {
            let pairs = side.structural_nnz;
            let far = [
                0,
                pairs.wrapping_sub(1),
                pairs + 1,
                ENTRY_LIMIT + 1,
                usize::MAX,
            ];
            side.structural_nnz = rng.pick(&far);
        }
        7 => {
            let near = [0, side.nrows + 1, SIDE_LIMIT, SIDE_LIMIT + 1, usize::MAX];
            side.nrows = rng.pick(&near);
        }
        _ => {
            let less = side.ncols.wrapping_sub(1);
            let near = [0, less, less, side.ncols + 1, SIDE_LIMIT, SIDE_LIMIT + 1];
            side.ncols = rng.pick(&near);
        }
    }
}

fn break_pointer(rng: &mut Rng, side: &mut Side) {
    if side.row_word_ptr.is_empty() {
        return;
    }
    let place = rng.below(side.row_word_ptr.len());
    let old = side.row_word_ptr[place];
    let words = side.masks.len() as u32;
    side.row_word_ptr[place] = rng.pick(&[
        0,
        old.wrapping_sub(1),
        old.wrapping_add(1),
        words,
        words + 1,
        u32::MAX,
    ]);
}

fn break_word(rng: &mut Rng, side: &mut Side) {
    let words = side.masks.len().min(side.word_indices.len());
    if words == 0 {
        return;
    }
    let place = rng.below(words);
    let before = side.word_indices[place.saturating_sub(1)];
    let past = side.ncols.div_ceil(64) as u32;
    match rng.below(6) {
        0 => {
            side.structural_nnz -=
                (side.masks[place].count_ones() as usize).min(side.structural_nnz);
            side.masks[place] = 0;
        }
        1 => side.word_indices[place] = before,
        2 => side.word_indices.swap(place, place.saturating_sub(1)),
        3 => side.word_indices[place] = rng.pick(&[past, past + 1, u32::MAX, 1 << 26]),
        _ => {
            let bit = 1 << rng.below(64);
            side.structural_nnz += usize::from(side.masks[place] & bit == 0);
            side.masks[place] |= bit;
        }
    }
}

fn right_topology(rng: &mut Rng) -> Topology {
    let matrix = right_matrix(rng);
    topology(matrix.nrows, matrix.ncols, &pairs(&matrix))
}

fn random_topology(rng: &mut Rng) -> Topology {
    let mut topology = right_topology(rng);
    match rng.below(12) {
        0 => break_side(rng, &mut topology.rows),
        1 => break_side(rng, &mut topology.columns),
        2 => {
            break_side(rng, &mut topology.rows);
            break_side(rng, &mut topology.columns);
        }
        3 => return other_pairs(rng, &topology),
        _ => {}
    }
    topology
}

/// Columns of the same sizes with one pair at another place.
fn other_pairs(rng: &mut Rng, right: &Topology) -> Topology {
    let (nrows, ncols) = (right.rows.nrows, right.rows.ncols);
    let mut pairs = faults::pairs(&right.rows);
    if !pairs.is_empty() {
        let place = rng.below(pairs.len());
        match rng.below(3) {
            0 => pairs[place].0 = rng.below(nrows),
            1 => pairs[place].1 = rng.below(ncols),
            _ => pairs[place] = (rng.below(nrows), rng.below(ncols)),
        }
    }
    let other = topology(nrows, ncols, &pairs);
    Topology {
        rows: right.rows.clone(),
        columns: other.columns,
    }
}

/// Mostly two sides of one size.
fn combine(rng: &mut Rng) -> Call {
    let operation = rng.pick(&OPERATIONS);
    let mut a = right_side(rng);
    let mut b = match rng.below(12) {
        0 => random_side(rng),
        1 => a.clone(),
        _ => beside(rng, &a),
    };
    if rng.once_in(6) {
        let wrong = rng.pick(&[0, 1, 2]);
        if wrong != 0 {
            break_side(rng, &mut a);
        }
        if wrong != 1 {
            break_side(rng, &mut b);
        }
    }
    let needed = rooms::of_side(a.nrows.min(3_000), a.masks.len() + b.masks.len());
    let out = lent(rng, &needed);
    Call::Combine(operation, a, b, out)
}

/// A side of the same size with some of the same pairs, and others.
fn beside(rng: &mut Rng, a: &Side) -> Side {
    let order = rng.pick(&ORDERS);
    let densest = rng.below(5);
    let other = ordered(rng, order, a.nrows, a.ncols, densest);
    let mut all = pairs(&other);
    all.extend(faults::pairs(a).iter().filter(|_| rng.once_in(2)));
    side(a.nrows, a.ncols, &all)
}

fn of_row(rng: &mut Rng) -> Call {
    let topology = random_topology(rng);
    let columns = rng.once_in(2);
    let side = topology.side(columns);
    let (pointers, width) = (side.row_word_ptr.len(), side.ncols.min(SIDE_LIMIT));
    let number = match rng.below(20) {
        0 => rng.pick(&FAR),
        _ => rng.below(pointers.max(1)) as u64,
    };
    let col = match rng.below(20) {
        0 => rng.pick(&FAR),
        1..5 => 64 * rng.below(width / 64 + 1) as u64,
        5 => width as u64,
        6 => width as u64 + 1,
        _ => rng.below(width + 1) as u64,
    };
    let ordinal = match rng.below(20) {
        0 => rng.pick(&FAR),
        _ => rng.below(8) as u64,
    };
    let question = match rng.below(8) {
        0 => Question::Words,
        1 => Question::Popcount,
        2 => Question::Contains(col),
        3 | 4 => Question::Rank(col),
        5 | 6 => Question::Select(ordinal),
        _ => Question::Word(ordinal / 2),
    };
    Call::OfRow(topology, Row { columns, number }, question)
}
