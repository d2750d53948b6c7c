//! The calls on topologies: on one side, on both, and on the rows of either.

mod cases;
mod examples;
mod expected;
pub mod faults;
mod fixed;
mod limits;
mod matrices;
mod port;
mod questions;
mod random;
mod rooms;
mod small;
mod wide;

pub use cases::{Pair, matrix as matrix_of_rows, pairs, topology as of_pairs};
pub use expected::{accepted_side, accepted_topology};
pub use matrices::{ORDERS, Order, ordered, row as ordered_row};
pub use random::break_side;
pub use rooms::{both_lent, near, of_both};

use super::csr32::Matrix;
use super::{Function, GroupCall, GroupCalls};
use crate::answer::Answer;
use crate::parts::List::{U32, U64};
use crate::parts::Parts;
use crate::rng::Rng;

/// One side of a topology: its words, row by row, and how many pairs it has.
#[derive(Clone, PartialEq)]
pub struct Side {
    pub nrows: usize,
    pub ncols: usize,
    pub row_word_ptr: Vec<u32>,
    pub word_indices: Vec<u32>,
    pub masks: Vec<u64>,
    pub structural_nnz: usize,
}

#[derive(Clone, PartialEq)]
pub struct Topology {
    pub rows: Side,
    pub columns: Side,
}

/// The lists into which a side is built.
#[derive(Clone, PartialEq)]
pub struct Lent {
    pub row_word_ptr: Vec<u32>,
    pub word_indices: Vec<u32>,
    pub masks: Vec<u64>,
}

/// The lists into which both sides are built, and the two of scratch.
#[derive(Clone, PartialEq)]
pub struct BothLent {
    pub rows: Lent,
    pub columns: Lent,
    pub starts: Vec<u32>,
    pub order: Vec<u32>,
}

#[derive(Clone, PartialEq)]
pub enum Call {
    SideValidate(Side),
    SideStats(Side),
    SideFromCsr32(Matrix, Lent),
    Combine(Operation, Side, Side, Lent),
    Validate(Topology),
    Stats(Topology),
    FromCsr32(Matrix, BothLent),
    OfRow(Topology, Row, Question),
}

#[derive(Clone, Copy, PartialEq)]
pub enum Operation {
    Intersection,
    Union,
    AndNot,
    Xor,
}

pub const OPERATIONS: [Operation; 4] = [
    Operation::Intersection,
    Operation::Union,
    Operation::AndNot,
    Operation::Xor,
];

/// A row of the rows or, with `columns`, of the columns.
#[derive(Clone, Copy, PartialEq)]
pub struct Row {
    pub columns: bool,
    pub number: u64,
}

/// What is asked of a row.
#[derive(Clone, Copy, PartialEq)]
pub enum Question {
    Words,
    Popcount,
    Contains(u64),
    Rank(u64),
    Select(u64),
    Word(u64),
}

impl GroupCalls for Call {
    const NAME: &'static str = "topology";
    const FUNCTIONS: &'static [Function] = &[
        ("hybit_topology_validate", &[1, 9]),
        ("hybit_topology_stats", &[1, 9]),
        ("hybit_topology_from_csr32", &[1, 2, 3, 4, 5, 6, 7, 8, 25]),
        ("hybit_topology_intersection", &[1, 9, 22, 25]),
        ("hybit_topology_union", &[1, 9, 22, 25]),
        ("hybit_topology_and_not", &[1, 9, 22, 25]),
        ("hybit_topology_xor", &[1, 9, 22, 25]),
        ("hybit_dual_topology_validate", &[1, 9]),
        ("hybit_dual_topology_stats", &[1, 9]),
        (
            "hybit_dual_topology_from_csr32",
            &[1, 2, 3, 4, 5, 6, 7, 8, 25],
        ),
        ("hybit_row_words", &[1, 9, 13]),
        ("hybit_row_popcount", &[1, 9, 13]),
        ("hybit_row_contains", &[1, 9, 13]),
        ("hybit_row_rank", &[1, 9, 13]),
        ("hybit_row_select", &[1, 9, 13]),
        ("hybit_row_word", &[1, 9, 13]),
    ];

    fn examples() -> Vec<(Self, Answer)> {
        examples::examples()
    }

    fn fixed(run: &mut dyn FnMut(Self)) {
        small::run(run);
        fixed::run(run);
        wide::run(run);
        limits::run(run);
    }

    fn random(rng: &mut Rng) -> Self {
        random::random(rng)
    }

    fn edges(offer: &mut dyn FnMut(Self)) {
        cases::edges(offer);
    }
}

impl GroupCall for Call {
    fn place(&self) -> usize {
        match self {
            Call::SideValidate(..) => 0,
            Call::SideStats(..) => 1,
            Call::SideFromCsr32(..) => 2,
            Call::Combine(Operation::Intersection, ..) => 3,
            Call::Combine(Operation::Union, ..) => 4,
            Call::Combine(Operation::AndNot, ..) => 5,
            Call::Combine(Operation::Xor, ..) => 6,
            Call::Validate(..) => 7,
            Call::Stats(..) => 8,
            Call::FromCsr32(..) => 9,
            Call::OfRow(_, _, Question::Words) => 10,
            Call::OfRow(_, _, Question::Popcount) => 11,
            Call::OfRow(_, _, Question::Contains(..)) => 12,
            Call::OfRow(_, _, Question::Rank(..)) => 13,
            Call::OfRow(_, _, Question::Select(..)) => 14,
            Call::OfRow(_, _, Question::Word(..)) => 15,
        }
    }

    /// Numbers and lists in the order of the function's own parameters.
    fn parts(&mut self) -> Parts<'_> {
        match self {
            Call::SideValidate(side) | Call::SideStats(side) => {
                side.add_to(Parts::new(), names!(""))
            }
            Call::SideFromCsr32(matrix, out) => out.add_to(matrix.parts(), names!("out.")),
            Call::Combine(_, a, b, out) => {
                let parts = a.add_to(Parts::new(), names!("a."));
                out.add_to(b.add_to(parts, names!("b.")), names!("out."))
            }
            Call::Validate(topology) | Call::Stats(topology) => topology.parts(),
            Call::FromCsr32(matrix, out) => out.add_to(matrix.parts()),
            Call::OfRow(topology, row, question) => {
                let parts = topology
                    .parts()
                    .number("columns", u64::from(row.columns))
                    .number("number", row.number);
                match question {
                    Question::Words | Question::Popcount => parts,
                    Question::Contains(col) | Question::Rank(col) => parts.number("col", *col),
                    Question::Select(ordinal) => parts.number("ordinal", *ordinal),
                    Question::Word(k) => parts.number("k", *k),
                }
            }
        }
    }

    fn ask_port(&mut self) -> Answer {
        port::answer(self)
    }

    fn expect(&mut self) -> Result<Answer, Answer> {
        expected::answer(self)
    }

    /// Of a topology that `validate` refuses (9) which fault it has; of two
    /// sides which is refused (1, 9), and whether rows or columns differ (22);
    /// of lists that are too short (25) which; of rows whose.
    fn told_apart(&self, answer: Answer) -> u64 {
        match (self, answer.number) {
            (Call::SideValidate(side), 9) => faults::of_side(side),
            (Call::Validate(topology), 9) => faults::of_topology(topology),
            (Call::Combine(_, a, ..), 1 | 9) => u64::from(expected::accepted_side(a).is_ok()),
            (Call::Combine(_, a, b, _), 22) => u64::from(a.nrows == b.nrows),
            (_, 25) => rooms::first_short(self),
            (Call::OfRow(_, row, _), 0) => 2 * answer.none_zero_or_more() + u64::from(row.columns),
            (Call::OfRow(topology, row, _), 13) => {
                let side = topology.side(row.columns);
                2 * u64::from(row.number < side.nrows as u64) + u64::from(row.columns)
            }
            _ => answer.none_zero_or_more(),
        }
    }
}

/// What the parts of a side are called.
type Names = [&'static str; 6];

macro_rules! names {
    ($side:literal) => {
        [
            concat!($side, "nrows"),
            concat!($side, "ncols"),
            concat!($side, "row_word_ptr"),
            concat!($side, "word_indices"),
            concat!($side, "masks"),
            concat!($side, "structural_nnz"),
        ]
    };
}
use names;

impl Side {
    fn add_to<'call>(&'call mut self, parts: Parts<'call>, names: Names) -> Parts<'call> {
        let [
            nrows,
            ncols,
            row_word_ptr,
            word_indices,
            masks,
            structural_nnz,
        ] = names;
        parts
            .number(nrows, self.nrows as u64)
            .number(ncols, self.ncols as u64)
            .read(row_word_ptr, U32(&mut self.row_word_ptr))
            .read(word_indices, U32(&mut self.word_indices))
            .read(masks, U64(&mut self.masks))
            .number(structural_nnz, self.structural_nnz as u64)
    }
}

impl Topology {
    pub fn parts(&mut self) -> Parts<'_> {
        let parts = self.rows.add_to(Parts::new(), names!("rows."));
        self.columns.add_to(parts, names!("columns."))
    }

    fn side(&self, columns: bool) -> &Side {
        if columns { &self.columns } else { &self.rows }
    }
}

impl Lent {
    fn add_to<'call>(&'call mut self, parts: Parts<'call>, names: Names) -> Parts<'call> {
        let [_, _, row_word_ptr, word_indices, masks, _] = names;
        parts
            .written(row_word_ptr, U32(&mut self.row_word_ptr))
            .written(word_indices, U32(&mut self.word_indices))
            .written(masks, U64(&mut self.masks))
    }
}

impl BothLent {
    pub fn add_to<'call>(&'call mut self, parts: Parts<'call>) -> Parts<'call> {
        let parts = self.rows.add_to(parts, names!("out.rows."));
        self.columns
            .add_to(parts, names!("out.columns."))
            .written("starts", U32(&mut self.starts))
            .written("order", U32(&mut self.order))
    }
}
