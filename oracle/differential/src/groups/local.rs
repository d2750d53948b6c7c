//! The calls on the local system of a region: its pattern, its numeric plan and
//! the gather of its values; and runs of growths that end in all three.

mod cases;
mod edges;
mod examples;
mod expected;
mod faults;
mod fixed;
mod kinds;
mod limits;
mod orders;
mod plans;
mod port;
mod random;
mod rooms;
mod rows;
mod runs;
mod small;
mod strangers;
mod values;

pub use cases::{of_entries, square, valued};
pub use expected::opened as opened_matrix;
pub use rooms::plan_lent;
pub use runs::Run;
pub use small::each_matrix;

use super::csr32::Matrix;
use super::mask::Mask;
use super::topology::Topology;
use super::{Function, GroupCall, GroupCalls};
use crate::answer::Answer;
use crate::parts::List::{F64, U32, U64};
use crate::parts::Parts;
use crate::rng::Rng;

/// The lists that a pattern is written to.
#[derive(Clone, PartialEq)]
pub struct PatternLent {
    pub global_nodes: Vec<u32>,
    pub row_ptr: Vec<u32>,
    pub col_idx: Vec<u32>,
}

/// Those of a plan: its pattern and where each pair's values come from.
#[derive(Clone, PartialEq)]
pub struct PlanLent {
    pub pattern: PatternLent,
    pub source_ptr: Vec<u32>,
    pub source_indices: Vec<u32>,
}

/// The lists of a plan that a gather takes, new values, and the list that it
/// writes.
#[derive(Clone)]
pub struct Gather {
    pub source_ptr: Vec<u32>,
    pub source_indices: Vec<u32>,
    pub source_value_len: usize,
    pub values: Vec<f64>,
    pub out: Vec<f64>,
}

#[derive(Clone, PartialEq)]
pub enum Call {
    Pattern {
        topology: Topology,
        region: Mask,
        lent: PatternLent,
    },
    Plan {
        topology: Topology,
        matrix: Matrix,
        region: Mask,
        lent: PlanLent,
    },
    Gather(Gather),
    Run(Box<Run>),
}

impl GroupCalls for Call {
    const NAME: &'static str = "local";
    const FUNCTIONS: &'static [Function] = &[
        (
            "hybit_extract_local_submatrix_pattern",
            &[1, 9, 10, 11, 12, 25],
        ),
        (
            "hybit_prepare_local_numeric_plan",
            &[1, 2, 3, 4, 5, 6, 7, 8, 9, 10, 11, 12, 22, 23, 24, 25],
        ),
        ("hybit_gather_values", &[1, 8, 11, 25, 26]),
        ("runs of growths", &[]),
    ];

    fn examples() -> Vec<(Self, Answer)> {
        examples::examples()
    }

    fn fixed(run: &mut dyn FnMut(Self)) {
        small::run(run);
        fixed::run(run);
        rows::run(run);
        strangers::run(run);
        values::run(run);
        plans::run(run);
        faults::run(run);
        orders::run(run);
        runs::fixed(run);
        limits::run(run);
    }

    fn random(rng: &mut Rng) -> Self {
        random::random(rng)
    }

    fn edges(offer: &mut dyn FnMut(Self)) {
        edges::run(offer);
    }

    fn unrecorded() -> Vec<Self> {
        runs::examples()
    }
}

impl GroupCall for Call {
    fn place(&self) -> usize {
        match self {
            Call::Pattern { .. } => 0,
            Call::Plan { .. } => 1,
            Call::Gather(..) => 2,
            Call::Run(..) => 3,
        }
    }

    /// Numbers in the order of the function's own parameters. Lists of one kind
    /// stand at one place in all three calls: two sides, a matrix, a mask, the
    /// five lists of a plan, gathered values. A gather's plan and values stand
    /// in place of the matrix.
    fn parts(&mut self) -> Parts<'_> {
        match self {
            Call::Pattern {
                topology,
                region,
                lent,
            } => lent.add_to(region_of(region, topology.parts().absent(3))),
            Call::Plan {
                topology,
                matrix,
                region,
                lent,
            } => {
                let parts = matrix_of(matrix, topology.parts());
                lent.add_to(region_of(region, parts))
            }
            Call::Gather(gather) => Parts::new()
                .number("source_value_len", gather.source_value_len as u64)
                .absent(6)
                .read("source_ptr", U32(&mut gather.source_ptr))
                .read("source_indices", U32(&mut gather.source_indices))
                .read("values (bits)", F64(&mut gather.values))
                .absent(1)
                .absent_written(5)
                .written("out (bits)", F64(&mut gather.out)),
            Call::Run(run) => run.parts(),
        }
    }

    fn ask_port(&mut self) -> Answer {
        port::answer(self)
    }

    fn expect(&mut self) -> Result<Answer, Answer> {
        expected::answer(self)
    }

    /// How many nodes and pairs there are, whether a plan is direct, whether a
    /// list is longer than needed; of a fault which; of lists that are too
    /// short (25) which.
    fn told_apart(&self, answer: Answer) -> u64 {
        kinds::told_apart(self, answer)
    }
}

fn region_of<'call>(mask: &'call mut Mask, parts: Parts<'call>) -> Parts<'call> {
    parts
        .number("len", mask.len as u64)
        .read("words", U64(&mut mask.words))
}

fn matrix_of<'call>(matrix: &'call mut Matrix, parts: Parts<'call>) -> Parts<'call> {
    parts
        .number("matrix.nrows", matrix.nrows as u64)
        .number("matrix.ncols", matrix.ncols as u64)
        .read("matrix.row_ptr", U32(&mut matrix.row_ptr))
        .read("matrix.col_idx", U32(&mut matrix.col_idx))
        .read("matrix.values (bits)", F64(&mut matrix.values))
}

impl PatternLent {
    fn add_to<'call>(&'call mut self, parts: Parts<'call>) -> Parts<'call> {
        parts
            .written("global_nodes", U32(&mut self.global_nodes))
            .written("row_ptr", U32(&mut self.row_ptr))
            .written("col_idx", U32(&mut self.col_idx))
    }
}

impl PlanLent {
    pub fn add_to<'call>(&'call mut self, parts: Parts<'call>) -> Parts<'call> {
        self.pattern
            .add_to(parts)
            .written("source_ptr", U32(&mut self.source_ptr))
            .written("source_indices", U32(&mut self.source_indices))
    }
}

/// Values are compared by their bits.
impl PartialEq for Gather {
    fn eq(&self, other: &Self) -> bool {
        self.source_ptr == other.source_ptr
            && self.source_indices == other.source_indices
            && self.source_value_len == other.source_value_len
            && same_bits(&self.values, &other.values)
            && same_bits(&self.out, &other.out)
    }
}

fn same_bits(values: &[f64], others: &[f64]) -> bool {
    let bits = values.iter().map(|value| value.to_bits());
    bits.eq(others.iter().map(|value| value.to_bits()))
}
