//! The examples of document 01.

use super::{Call, Matrix, validate};
use crate::answer::Answer;
use crate::expected::SIDE_LIMIT;

const OVER: usize = SIDE_LIMIT + 1;

pub fn examples() -> Vec<(Call, Answer)> {
    let refused = refused().into_iter();
    let mut all: Vec<(Call, Answer)> = refused
        .map(|(matrix, number)| (Call::Validate(matrix), Answer::refused(number)))
        .collect();
    let largest = validate(SIDE_LIMIT, SIDE_LIMIT, &[0; OVER], &[], &[]);
    all.push((largest, Answer::done()));
    all
}

/// The table's of a matrix: 1 to 8.
pub fn refused() -> Vec<(Matrix, u32)> {
    let calls = [
        validate(OVER, 1, &[0], &[], &[]),
        validate(2, 1, &[0, 1], &[0], &[1.0]),
        validate(1, 1, &[0, 1], &[0], &[]),
        validate(1, 1, &[1, 1], &[0], &[1.0]),
        validate(1, 1, &[0, 2], &[0], &[1.0]),
        validate(2, 1, &[0, 2, 1], &[0], &[1.0]),
        validate(1, 3, &[0, 1], &[3], &[1.0]),
        validate(1, 1, &[0, 1], &[0], &[f64::INFINITY]),
    ];
    let matrices = calls.into_iter().map(|Call::Validate(matrix)| matrix);
    matrices.zip(1..).collect()
}
