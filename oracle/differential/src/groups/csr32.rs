//! The matrix check.

mod examples;
mod expected;
mod fixed;
mod random;
mod values;

pub use examples::refused as refused_examples;
pub use expected::accepted;
pub use fixed::lists;
pub use random::{damage, finite, plant};
pub use values::{FINITE, NOT_FINITE};

use super::{Function, GroupCall, GroupCalls};
use crate::answer::Answer;
use crate::parts::List::{F64, U32};
use crate::parts::Parts;
use crate::port::port;
use crate::rng::Rng;

#[derive(Clone)]
pub struct Matrix {
    pub nrows: usize,
    pub ncols: usize,
    pub row_ptr: Vec<u32>,
    pub col_idx: Vec<u32>,
    pub values: Vec<f64>,
}

#[derive(Clone, PartialEq)]
pub enum Call {
    Validate(Matrix),
}

impl GroupCalls for Call {
    const NAME: &'static str = "csr32";
    const FUNCTIONS: &'static [Function] = &[("hybit_csr32_validate", &[1, 2, 3, 4, 5, 6, 7, 8])];

    fn examples() -> Vec<(Self, Answer)> {
        examples::examples()
    }

    fn fixed(run: &mut dyn FnMut(Self)) {
        fixed::fixed(run);
    }

    fn random(rng: &mut Rng) -> Self {
        random::random(rng)
    }
}

impl GroupCall for Call {
    fn place(&self) -> usize {
        match self {
            Call::Validate(_) => 0,
        }
    }

    fn parts(&mut self) -> Parts<'_> {
        let Call::Validate(matrix) = self;
        matrix.parts()
    }

    fn ask_port(&mut self) -> Answer {
        let Call::Validate(matrix) = self;
        let answer = port!(hybit_csr32_validate(
            matrix.nrows,
            matrix.ncols,
            [matrix.row_ptr],
            [matrix.col_idx],
            [matrix.values]
        ));
        answer.into()
    }

    fn expect(&mut self) -> Result<Answer, Answer> {
        let Call::Validate(matrix) = self;
        expected::validate(matrix)
    }
}

impl Matrix {
    pub fn parts(&mut self) -> Parts<'_> {
        Parts::new()
            .number("nrows", self.nrows as u64)
            .number("ncols", self.ncols as u64)
            .read("row_ptr", U32(&mut self.row_ptr))
            .read("col_idx", U32(&mut self.col_idx))
            .read("values (bits)", F64(&mut self.values))
    }
}

/// Values are compared by their bits.
impl PartialEq for Matrix {
    fn eq(&self, other: &Self) -> bool {
        let bits = self.values.iter().map(|value| value.to_bits());
        let other_bits = other.values.iter().map(|value| value.to_bits());
        self.nrows == other.nrows
            && self.ncols == other.ncols
            && self.row_ptr == other.row_ptr
            && self.col_idx == other.col_idx
            && bits.eq(other_bits)
    }
}

fn validate(nrows: usize, ncols: usize, row_ptr: &[u32], col_idx: &[u32], values: &[f64]) -> Call {
    Call::Validate(Matrix {
        nrows,
        ncols,
        row_ptr: row_ptr.to_vec(),
        col_idx: col_idx.to_vec(),
        values: values.to_vec(),
    })
}
