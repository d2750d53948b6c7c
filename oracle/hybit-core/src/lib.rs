//! Stand-in for the crate hybit_core: only what the eight files use.

#[derive(Clone, Debug, PartialEq, Eq)]
pub enum HybitError {
    InvalidMatrix(&'static str),
    InvalidArgument(&'static str),
    DimensionMismatch { expected: usize, actual: usize },
    MissingDiagonal { row: usize },
    SizeOverflow,
}

pub trait LinearOperator {
    fn rows(&self) -> usize;
    fn cols(&self) -> usize;
    fn apply(&self, x: &[f64], y: &mut [f64]) -> Result<(), HybitError>;
}
