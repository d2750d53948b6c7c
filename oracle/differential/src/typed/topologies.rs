//! Topologies: one side, both, and rows.

use hybit_matrix::{AbtmDualTopology, AbtmTopology};

use super::Answered::{self, U32, U64};
use super::{Case, Compared, numbers};
use crate::answer::Answer;
use crate::groups::csr32::Matrix;
use crate::groups::topology::{Call, Operation, Question, Row, Side, Topology};

pub fn compare(call: &Call, case: &Case) -> Compared {
    match call {
        Call::SideValidate(side) => {
            case.accepted(case.side(side)?.validate())?;
            case.told(Answer::done(), &[])
        }
        Call::SideStats(side) => case.told(side_stats(&case.side(side)?), &[]),
        Call::SideFromCsr32(matrix, _) => {
            let side = case.accepted(AbtmTopology::from_csr32(&case.matrix(matrix)?))?;
            built(&side, case)
        }
        Call::Combine(operation, a, b, _) => combine(*operation, a, b, case),
        Call::Validate(topology) => {
            case.accepted(case.topology(topology)?.validate())?;
            case.told(Answer::done(), &[])
        }
        Call::Stats(topology) => case.told(stats(&case.topology(topology)?), &[]),
        Call::FromCsr32(matrix, _) => from_csr32(matrix, case),
        Call::OfRow(topology, row, question) => of_row(topology, *row, *question, case),
    }
}

fn side_stats(side: &AbtmTopology) -> Answer {
    let stats = side.stats();
    Answer::told_all(&[
        stats.nrows as u64,
        stats.ncols as u64,
        stats.structural_nnz as u64,
        stats.nonempty_words as u64,
        stats.metadata_bytes as u64,
        stats.average_word_nnz().to_bits(),
        stats.word_fill_ratio().to_bits(),
        stats.metadata_bytes_per_nnz().to_bits(),
    ])
}

fn stats(topology: &AbtmDualTopology) -> Answer {
    let stats = topology.stats();
    Answer::told_all(&[
        stats.nrows as u64,
        stats.ncols as u64,
        stats.structural_nnz as u64,
        stats.row_metadata_bytes as u64,
        stats.column_metadata_bytes as u64,
        stats.total_metadata_bytes() as u64,
        stats.metadata_bytes_per_nnz().to_bits(),
    ])
}

pub fn lists(side: &AbtmTopology) -> [Answered<'_>; 3] {
    [
        U32(side.row_word_ptr()),
        U32(side.word_indices()),
        U64(side.masks()),
    ]
}

fn built(side: &AbtmTopology, case: &Case) -> Compared {
    let told = numbers(&[side.nonempty_words(), side.structural_nnz()]);
    case.told(told, &lists(side))
}

fn combine(operation: Operation, a: &Side, b: &Side, case: &Case) -> Compared {
    let (a, b) = (case.side(a)?, case.side(b)?);
    let side = match operation {
        Operation::Intersection => a.intersection(&b),
        Operation::Union => a.union(&b),
        Operation::AndNot => a.and_not(&b),
        Operation::Xor => a.xor(&b),
    };
    built(&case.accepted(side)?, case)
}

fn from_csr32(matrix: &Matrix, case: &Case) -> Compared {
    let topology = case.accepted(AbtmDualTopology::from_csr32(&case.matrix(matrix)?))?;
    let (rows, columns) = (topology.row_topology(), topology.column_topology());
    let told = numbers(&[
        rows.nonempty_words(),
        columns.nonempty_words(),
        rows.structural_nnz(),
    ]);
    let [a, b, c] = lists(rows);
    let [d, e, f] = lists(columns);
    case.told(told, &[a, b, c, d, e, f])
}

fn of_row(topology: &Topology, row: Row, question: Question, case: &Case) -> Compared {
    let topology = case.topology(topology)?;
    let number = row.number as usize;
    let row = case.accepted(match row.columns {
        true => topology.column(number),
        false => topology.row(number),
    })?;
    let answer = match question {
        Question::Words => numbers(&[row.nonempty_words()]),
        Question::Popcount => numbers(&[row.popcount()]),
        Question::Contains(col) => Answer::told(row.contains(col as usize).into()),
        Question::Rank(col) => numbers(&[case.accepted(row.rank(col as usize))?]),
        Question::Select(ordinal) => match row.select(ordinal as usize) {
            Some(col) => numbers(&[col]),
            None => Answer::none(),
        },
        Question::Word(k) => match row.words().nth(k as usize) {
            Some(word) => Answer::told_all(&[word.word_index().into(), word.mask()]),
            None => Answer::none(),
        },
    };
    case.told(answer, &[])
}
