//! Topologies that are refused by 9, made of right ones.

use hybit_core::HybitError;

use super::cases::{Pair, side, topology, turned};
use super::{Side, Topology};
use crate::expected::{ENTRY_LIMIT, SIDE_LIMIT, TOPOLOGY_FAULTS};

/// How many of the errors are those of one side.
const OF_SIDE: usize = 10;

/// Which error the Rust has for a side.
pub fn of_side(side: &Side) -> u64 {
    number(side.open().validate())
}

/// Which error the Rust has for a topology, of which side, or none.
pub fn of_topology(topology: &Topology) -> u64 {
    let whole = number(topology.open().validate());
    let of_rows = topology.rows.open().validate().is_err();
    whole + if of_rows { 100 } else { 0 }
}

fn number(answer: Result<(), HybitError>) -> u64 {
    let found = TOPOLOGY_FAULTS
        .iter()
        .position(|&text| answer == Err(HybitError::InvalidMatrix(text)));
    found.unwrap_or(TOPOLOGY_FAULTS.len()) as u64
}

/// Ends the program unless the sides have every fault that a side can have.
pub fn demand_all(sides: &[Side]) {
    for (fault, text) in (0..).zip(&TOPOLOGY_FAULTS[..OF_SIDE]) {
        let met = sides.iter().any(|side| of_side(side) == fault);
        assert!(met, "no side with: {text}");
    }
}

/// Sides with one fault, at every place where it can stand; some of the changes
/// make another right side instead.
pub fn broken(right: &Side) -> Vec<Side> {
    let mut all = vec![];
    let mut add = |change: &dyn Fn(&mut Side)| {
        let mut wrong = right.clone();
        change(&mut wrong);
        all.push(wrong);
    };
    pointer_lists(right, &mut add);
    list_lengths(right, &mut add);
    words(right, &mut add);
    sizes(right, &mut add);
    all
}

type Add<'a> = dyn FnMut(&dyn Fn(&mut Side)) + 'a;

/// Length, start, end, falling pointers and pointers past the end.
fn pointer_lists(right: &Side, add: &mut Add) {
    let words = right.masks.len() as u32;
    add(&|side| side.row_word_ptr.clear());
    add(&|side| side.row_word_ptr.truncate(right.nrows));
    add(&|side| {
        side.row_word_ptr.remove(0);
    });
    add(&|side| side.row_word_ptr.push(words));
    add(&|side| side.row_word_ptr.insert(0, 0));
    for place in 0..right.row_word_ptr.len() {
        let old = right.row_word_ptr[place];
        for new in [
            0,
            1,
            old.wrapping_sub(1),
            old + 1,
            words,
            words + 1,
            u32::MAX,
        ] {
            if new != old {
                add(&|side| side.row_word_ptr[place] = new);
                add(&|side| {
                    side.row_word_ptr[place] = new;
                    recount(side);
                });
            }
        }
    }
    // Two neighbours that fall, and both past the end.
    for place in 1..right.row_word_ptr.len().saturating_sub(2) {
        add(&|side| side.row_word_ptr.swap(place, place + 1));
        add(&|side| {
            side.row_word_ptr.swap(place, place + 1);
            recount(side);
        });
        add(&|side| side.row_word_ptr[place..place + 2].fill(words + 1));
        add(&|side| side.row_word_ptr[place..place + 2].copy_from_slice(&[words + 2, words + 1]));
    }
}

/// Gives a side the pairs that are counted row by row if rows without an end
/// have none: then no other fault hides that of the pointers.
fn recount(side: &mut Side) {
    let rows = side.row_word_ptr.windows(2);
    let masks = rows.filter_map(|ends| side.masks.get(ends[0] as usize..ends[1] as usize));
    side.structural_nnz = masks.map(ones).sum();
}

fn ones(masks: &[u64]) -> usize {
    masks.iter().map(|mask| mask.count_ones() as usize).sum()
}

/// Word numbers and masks that differ in length, and both longer or shorter.
fn list_lengths(right: &Side, add: &mut Add) {
    let last = right.word_indices.last().copied().unwrap_or_default();
    let fewer = right.masks.len().saturating_sub(1);
    add(&|side| side.word_indices.truncate(fewer));
    add(&|side| side.masks.truncate(fewer));
    add(&|side| side.word_indices.push(last + 1));
    add(&|side| side.masks.push(1));
    add(&|side| {
        side.word_indices.truncate(fewer);
        side.masks.truncate(fewer);
    });
    add(&|side| {
        side.word_indices.push(last + 1);
        side.masks.push(1);
    });
    add(&|side| side.word_indices.clear());
    add(&|side| side.masks.clear());
}

/// Empty words, equal and falling ones, words and bits past the columns.
fn words(right: &Side, add: &mut Add) {
    let past = right.ncols.div_ceil(64) as u32;
    for place in 0..right.masks.len() {
        let count = right.masks[place].count_ones() as usize;
        add(&|side| {
            side.masks[place] = 0;
            side.structural_nnz -= count;
        });
        add(&|side| side.masks[place] = 0);
        // The last three are small again where 64 times the number is kept in
        // 32 bits, or the number in fewer.
        for word in [past, past + 1, u32::MAX, 1 << 26, 1 << 16, 1 << 31] {
            add(&|side| side.word_indices[place] = word);
            add(&|side| side.word_indices[place] |= word);
        }
        for bit in 0..64 {
            if 64 * right.word_indices[place] as usize + bit >= right.ncols {
                add(&|side| {
                    side.masks[place] |= 1 << bit;
                    side.structural_nnz += 1;
                });
            }
        }
        add(&|side| {
            side.masks[place] |= 1 << 63;
            side.structural_nnz += 1 - (right.masks[place] >> 63) as usize;
        });
        if place > 0 {
            add(&|side| side.word_indices[place] = side.word_indices[place - 1]);
            add(&|side| side.word_indices.swap(place - 1, place));
        }
    }
}

/// A wrong pair count, and sides that the lists do not fit.
fn sizes(right: &Side, add: &mut Add) {
    let pairs = right.structural_nnz;
    for count in [
        0,
        pairs.wrapping_sub(1),
        pairs + 1,
        pairs + (1 << 32),
        right.masks.len(),
        ENTRY_LIMIT,
        ENTRY_LIMIT + 1,
        usize::MAX,
    ] {
        if count != pairs {
            add(&|side| side.structural_nnz = count);
        }
    }
    for size in [
        0,
        1,
        right.nrows.wrapping_sub(1),
        right.nrows + 1,
        SIDE_LIMIT,
        SIDE_LIMIT + 1,
        right.nrows + (1 << 32),
        usize::MAX,
    ] {
        add(&|side| side.nrows = size);
    }
    for size in [
        0,
        1,
        right.ncols.wrapping_sub(1),
        right.ncols + 1,
        right.ncols / 64 * 64,
        SIDE_LIMIT,
        SIDE_LIMIT + 1,
        right.ncols + (1 << 32),
        usize::MAX,
    ] {
        add(&|side| side.ncols = size);
    }
}

/// Both sides right, but not of one topology: other sizes, a pair more or less,
/// or the same number of pairs at other places.
pub fn disagreeing(right: &Topology) -> Vec<Topology> {
    let (nrows, ncols) = (right.rows.nrows, right.rows.ncols);
    let pairs = pairs(&right.rows);
    let mut all = vec![];
    for (columns, rows) in [
        (ncols + 1, nrows),
        (ncols, nrows + 1),
        (ncols + 1, nrows + 1),
        (nrows, ncols),
    ] {
        let turned: Vec<Pair> = turned(&pairs)
            .into_iter()
            .filter(|pair| pair.0 < columns && pair.1 < rows)
            .collect();
        all.push(Topology {
            rows: right.rows.clone(),
            columns: side(columns, rows, &turned),
        });
    }
    for place in 0..pairs.len() {
        all.extend(with_pair_moved(right, &pairs, place));
    }
    // The rows once more in place of the columns, where that is a shape.
    if nrows == ncols {
        let same = right.rows.clone();
        all.push(Topology {
            rows: right.rows.clone(),
            columns: same,
        });
    }
    all
}

/// The right pairs in both sides, in one of them stored as no side may: with an
/// empty word more, with two words of a row exchanged, or with a word cut in
/// two; or the same wrong pair count in both. No other fault hides these.
pub fn hidden(right: &Topology) -> Vec<Topology> {
    let mut all = vec![];
    for rows in stored_otherwise(&right.rows) {
        let columns = right.columns.clone();
        all.push(Topology { rows, columns });
    }
    for columns in stored_otherwise(&right.columns) {
        let rows = right.rows.clone();
        all.push(Topology { rows, columns });
    }
    let pairs = right.rows.structural_nnz;
    for count in [0, pairs.saturating_sub(1), pairs + 1, ENTRY_LIMIT] {
        if count != pairs {
            let mut wrong = right.clone();
            wrong.rows.structural_nnz = count;
            wrong.columns.structural_nnz = count;
            all.push(wrong);
        }
    }
    all
}

fn stored_otherwise(right: &Side) -> Vec<Side> {
    let mut all = vec![];
    let past = right.ncols.div_ceil(64) as u32;
    for row in 0..right.nrows {
        let [start, end] = [row, row + 1].map(|at| right.row_word_ptr[at] as usize);
        for index in 0..=past {
            let own = right.word_indices[start..end].iter();
            let place = start + own.take_while(|&&own| own < index).count();
            let mut more = right.clone();
            more.insert_word(row, place, index, 0);
            all.push(more);
        }
        for place in start..end {
            let mask = right.masks[place];
            let mut cut = right.clone();
            cut.masks[place] = mask & (mask - 1);
            let index = right.word_indices[place];
            cut.insert_word(row, place, index, mask & mask.wrapping_neg());
            all.push(cut);
            if place > start {
                let mut exchanged = right.clone();
                exchanged.word_indices.swap(place - 1, place);
                exchanged.masks.swap(place - 1, place);
                all.push(exchanged);
            }
        }
    }
    all
}

impl Side {
    /// A word more in a row; the pair count is left.
    fn insert_word(&mut self, row: usize, place: usize, index: u32, mask: u64) {
        self.word_indices.insert(place, index);
        self.masks.insert(place, mask);
        for pointer in &mut self.row_word_ptr[row + 1..] {
            *pointer += 1;
        }
    }
}

/// One of the pairs missing, once more elsewhere, or elsewhere alone, in one of
/// the sides.
pub fn with_pair_moved(right: &Topology, pairs: &[Pair], place: usize) -> Vec<Topology> {
    let (nrows, ncols) = (right.rows.nrows, right.rows.ncols);
    let mut fewer = pairs.to_vec();
    let (row, column) = fewer.remove(place);
    let mut all = vec![with_columns(right, &fewer)];
    for moved in [
        ((row + 1) % nrows, column),
        (row, (column + 1) % ncols),
        ((row + 1) % nrows, (column + 1) % ncols),
        (row, (column + 64) % ncols),
        ((row + 64) % nrows, column),
        (nrows - 1 - row, ncols - 1 - column),
    ] {
        let more = [pairs, &[moved]].concat();
        all.push(with_columns(right, &more));
        let mut other = pairs.to_vec();
        other[place] = moved;
        all.push(with_columns(right, &other));
    }
    all
}

/// The rows with the columns of other pairs, and the other way round by turns.
fn with_columns(right: &Topology, pairs: &[Pair]) -> Topology {
    let other = topology(right.rows.nrows, right.rows.ncols, pairs);
    if pairs.len().is_multiple_of(2) {
        return Topology {
            rows: right.rows.clone(),
            columns: other.columns,
        };
    }
    Topology {
        rows: other.rows,
        columns: right.columns.clone(),
    }
}

/// The pairs of a right side.
pub fn pairs(right: &Side) -> Vec<Pair> {
    let mut all = vec![];
    for (row, ends) in right.row_word_ptr.windows(2).enumerate() {
        for word in ends[0] as usize..ends[1] as usize {
            let base = 64 * right.word_indices[word] as usize;
            let bits = (0..64).filter(|bit| right.masks[word] >> bit & 1 == 1);
            all.extend(bits.map(|bit| (row, base + bit)));
        }
    }
    all
}
