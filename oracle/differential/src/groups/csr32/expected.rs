//! What the matrix check is expected to answer.

use hybit_original::Csr32Matrix;

use super::Matrix;
use crate::answer::Answer;
use crate::expected::{ENTRY_LIMIT, SIDE_LIMIT, refusal};

pub fn validate(matrix: &Matrix) -> Result<Answer, Answer> {
    accepted(matrix)?;
    Ok(Answer::done())
}

/// The original's matrix, or the refusal.
pub fn accepted(matrix: &Matrix) -> Result<Csr32Matrix, Answer> {
    check_limits(matrix)?;
    Csr32Matrix::new(
        matrix.nrows,
        matrix.ncols,
        matrix.row_ptr.clone(),
        matrix.col_idx.clone(),
        matrix.values.clone(),
    )
    .map_err(refusal)
}

/// Added refusal 1 of a matrix.
fn check_limits(matrix: &Matrix) -> Result<(), Answer> {
    let side_over = matrix.nrows > SIDE_LIMIT || matrix.ncols > SIDE_LIMIT;
    let entries_over = matrix.col_idx.len() > ENTRY_LIMIT || matrix.values.len() > ENTRY_LIMIT;
    if side_over || entries_over {
        return Err(Answer::refused(1));
    }
    Ok(())
}
