//! What a call on a topology is expected to answer.
//!
//! A side comes as lists, so the Rust's type is made of it by hand (hybit_open)
//! once 01's limits have passed. What is built of a matrix is built by the
//! original, and its lists are read off its rows.

use hybit_core::HybitError;
use hybit_open::{AbtmDualTopology, AbtmTopology, AbtmTopologyRow};
use hybit_original as original;

use super::{BothLent, Call, Lent, Operation, Question, Row, Side, Topology};
use crate::answer::Answer;
use crate::expected::{ENTRY_LIMIT, SIDE_LIMIT, refusal};
use crate::groups::csr32::{Matrix, accepted};

pub fn answer(call: &mut Call) -> Result<Answer, Answer> {
    match call {
        Call::SideValidate(side) => {
            accepted_side(side)?;
            Ok(Answer::done())
        }
        Call::SideStats(side) => side_stats(side),
        Call::SideFromCsr32(matrix, out) => side_from_csr32(matrix, out),
        Call::Combine(operation, a, b, out) => combine(*operation, a, b, out),
        Call::Validate(topology) => {
            accepted_topology(topology)?;
            Ok(Answer::done())
        }
        Call::Stats(topology) => stats(topology),
        Call::FromCsr32(matrix, out) => from_csr32(matrix, out),
        Call::OfRow(topology, row, question) => of_row(topology, *row, *question),
    }
}

fn side_stats(side: &Side) -> Result<Answer, Answer> {
    let stats = accepted_side(side)?.stats();
    Ok(Answer::told_all(&[
        stats.nrows as u64,
        stats.ncols as u64,
        stats.structural_nnz as u64,
        stats.nonempty_words as u64,
        stats.metadata_bytes as u64,
        stats.average_word_nnz().to_bits(),
        stats.word_fill_ratio().to_bits(),
        stats.metadata_bytes_per_nnz().to_bits(),
    ]))
}

fn stats(topology: &Topology) -> Result<Answer, Answer> {
    let stats = accepted_topology(topology)?.stats();
    Ok(Answer::told_all(&[
        stats.nrows as u64,
        stats.ncols as u64,
        stats.structural_nnz as u64,
        stats.row_metadata_bytes as u64,
        stats.column_metadata_bytes as u64,
        stats.total_metadata_bytes() as u64,
        stats.metadata_bytes_per_nnz().to_bits(),
    ]))
}

fn side_from_csr32(matrix: &Matrix, out: &mut Lent) -> Result<Answer, Answer> {
    let matrix = accepted(matrix)?;
    let side = original::AbtmTopology::from_csr32(&matrix).map_err(refusal)?;
    let entries = matrix.nnz();
    if !out.has_room(matrix.nrows(), entries) {
        return Err(Answer::refused(25));
    }
    out.take(&lists(&side), entries);
    Ok(Answer::told_all(&[
        side.nonempty_words() as u64,
        side.structural_nnz() as u64,
    ]))
}

fn from_csr32(matrix: &Matrix, out: &mut BothLent) -> Result<Answer, Answer> {
    let matrix = accepted(matrix)?;
    let topology = original::AbtmDualTopology::from_csr32(&matrix).map_err(refusal)?;
    let (rows, columns) = (topology.row_topology(), topology.column_topology());
    let entries = matrix.nnz();
    if !out.has_room(matrix.nrows(), matrix.ncols(), entries) {
        return Err(Answer::refused(25));
    }
    out.take(&lists(rows), &lists(columns), entries);
    Ok(Answer::told_all(&[
        rows.nonempty_words() as u64,
        columns.nonempty_words() as u64,
        rows.structural_nnz() as u64,
    ]))
}

fn combine(operation: Operation, a: &Side, b: &Side, out: &mut Lent) -> Result<Answer, Answer> {
    let a = accepted_side(a)?;
    let b = accepted_side(b)?;
    let side = match operation {
        Operation::Intersection => a.intersection(&b),
        Operation::Union => a.union(&b),
        Operation::AndNot => a.and_not(&b),
        Operation::Xor => a.xor(&b),
    }
    .map_err(refusal)?;
    let words = a.masks.len() + b.masks.len();
    if !out.has_room(a.nrows, words) {
        return Err(Answer::refused(25));
    }
    let told = [side.masks.len() as u64, side.structural_nnz as u64];
    let answer = Lent {
        row_word_ptr: side.row_word_ptr,
        word_indices: side.word_indices,
        masks: side.masks,
    };
    out.take(&answer, words);
    Ok(Answer::told_all(&told))
}

fn of_row(topology: &Topology, row: Row, question: Question) -> Result<Answer, Answer> {
    let topology = accepted_topology(topology)?;
    let row = named_row(&topology, row).map_err(refusal)?;
    Ok(match question {
        Question::Words => Answer::told(row.nonempty_words() as u64),
        Question::Popcount => Answer::told(row.popcount() as u64),
        Question::Contains(col) => Answer::told(u64::from(row.contains(col as usize))),
        Question::Rank(col) => Answer::told(row.rank(col as usize).map_err(refusal)? as u64),
        Question::Select(ordinal) => match row.select(ordinal as usize) {
            Some(col) => Answer::told(col as u64),
            None => Answer::none(),
        },
        Question::Word(k) => match row.words().nth(k as usize) {
            Some(word) => Answer::told_all(&[u64::from(word.word_index()), word.mask()]),
            None => Answer::none(),
        },
    })
}

fn named_row(topology: &AbtmDualTopology, row: Row) -> Result<AbtmTopologyRow<'_>, HybitError> {
    let number = row.number as usize;
    if row.columns {
        topology.column(number)
    } else {
        topology.row(number)
    }
}

/// "Topology: 1, 9", of one side.
pub fn accepted_side(side: &Side) -> Result<AbtmTopology, Answer> {
    check_limits(side)?;
    let side = side.open();
    side.validate().map_err(refusal)?;
    Ok(side)
}

/// The limits of both sides, then what the Rust refuses, then what 01 adds.
pub fn accepted_topology(topology: &Topology) -> Result<AbtmDualTopology, Answer> {
    check_limits(&topology.rows)?;
    check_limits(&topology.columns)?;
    let open = topology.open();
    open.validate().map_err(refusal)?;
    if !is_transposed(topology) {
        return Err(Answer::refused(9));
    }
    Ok(open)
}

/// Added refusal 1 of a side.
fn check_limits(side: &Side) -> Result<(), Answer> {
    let side_over = side.nrows > SIDE_LIMIT || side.ncols > SIDE_LIMIT;
    let words_over = side.word_indices.len() > ENTRY_LIMIT || side.masks.len() > ENTRY_LIMIT;
    let pairs_over = side.structural_nnz > ENTRY_LIMIT;
    if side_over || words_over || pairs_over {
        return Err(Answer::refused(1));
    }
    Ok(())
}

/// Added to 9: "its columns are not the transpose of its rows". All pairs of
/// either side are listed, bit by bit, and those of the columns turned round.
fn is_transposed(topology: &Topology) -> bool {
    let rows = pairs(&topology.rows);
    let columns = pairs(&topology.columns).into_iter();
    let mut turned: Vec<(u32, u32)> = columns.map(|(column, row)| (row, column)).collect();
    turned.sort_unstable();
    rows == turned
}

/// The pairs of a side that the Rust accepts, by row, then by rising column.
fn pairs(side: &Side) -> Vec<(u32, u32)> {
    let mut all = vec![];
    for row in 0..side.nrows {
        let words = side.row_word_ptr[row] as usize..side.row_word_ptr[row + 1] as usize;
        for word in words {
            for bit in 0..64 {
                if side.masks[word] >> bit & 1 == 1 {
                    all.push((row as u32, 64 * side.word_indices[word] + bit));
                }
            }
        }
    }
    all
}

/// The Rust keeps its lists to itself; they are the words of its rows.
fn lists(side: &original::AbtmTopology) -> Lent {
    let mut lists = Lent {
        row_word_ptr: vec![0],
        word_indices: vec![],
        masks: vec![],
    };
    for row in (0..side.nrows()).map_while(|row| side.row(row).ok()) {
        for word in row.words() {
            lists.word_indices.push(word.word_index());
            lists.masks.push(word.mask());
        }
        lists.row_word_ptr.push(lists.masks.len() as u32);
    }
    lists
}

impl Lent {
    fn has_room(&self, rows: usize, words: usize) -> bool {
        self.row_word_ptr.len() > rows
            && self.word_indices.len() >= words
            && self.masks.len() >= words
    }

    /// Pointers and words over the front, then zeros where there could have
    /// been so many words.
    fn take(&mut self, answer: &Lent, words: usize) {
        self.row_word_ptr[..answer.row_word_ptr.len()].copy_from_slice(&answer.row_word_ptr);
        self.word_indices[..words].fill(0);
        self.word_indices[..answer.word_indices.len()].copy_from_slice(&answer.word_indices);
        self.masks[..words].fill(0);
        self.masks[..answer.masks.len()].copy_from_slice(&answer.masks);
    }
}

impl BothLent {
    pub fn has_room(&self, nrows: usize, ncols: usize, entries: usize) -> bool {
        self.rows.has_room(nrows, entries)
            && self.columns.has_room(ncols, entries)
            && self.starts.len() > ncols
            && self.order.len() >= entries
    }

    /// Both sides over their lists, then zeros over the scratch.
    pub fn take(&mut self, rows: &Lent, columns: &Lent, entries: usize) {
        self.rows.take(rows, entries);
        self.columns.take(columns, entries);
        self.starts[..columns.row_word_ptr.len()].fill(0);
        self.order[..entries].fill(0);
    }
}

impl Side {
    /// The original's type, made by hand.
    pub fn open(&self) -> AbtmTopology {
        AbtmTopology {
            nrows: self.nrows,
            ncols: self.ncols,
            row_word_ptr: self.row_word_ptr.clone(),
            word_indices: self.word_indices.clone(),
            masks: self.masks.clone(),
            structural_nnz: self.structural_nnz,
        }
    }
}

impl Topology {
    pub fn open(&self) -> AbtmDualTopology {
        AbtmDualTopology {
            rows: self.rows.open(),
            columns: self.columns.open(),
        }
    }
}
