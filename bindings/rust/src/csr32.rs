//! The matrix of the trace: rows of entries.

use crate::Refusal;
use crate::lend::ask;

/// A sparse matrix by rows. A pair may have several entries; they are kept in their order.
#[derive(Clone, Debug)]
pub struct Csr32Matrix {
    nrows: usize,
    ncols: usize,
    row_ptr: Vec<u32>,
    col_idx: Vec<u32>,
    values: Vec<f64>,
}

impl Csr32Matrix {
    /// Refused by 1 to 8.
    pub fn new(
        nrows: usize,
        ncols: usize,
        row_ptr: Vec<u32>,
        col_idx: Vec<u32>,
        values: Vec<f64>,
    ) -> Result<Self, Refusal> {
        let matrix = Self {
            nrows,
            ncols,
            row_ptr,
            col_idx,
            values,
        };
        matrix.validate()?;
        Ok(matrix)
    }

    /// The port's check of all lists; `new` has made it already.
    pub fn validate(&self) -> Result<(), Refusal> {
        ask!(hybit_csr32_validate(matrix self))?;
        Ok(())
    }

    pub fn nrows(&self) -> usize {
        self.nrows
    }

    pub fn ncols(&self) -> usize {
        self.ncols
    }

    pub fn nnz(&self) -> usize {
        self.values.len()
    }

    pub fn row_ptr(&self) -> &[u32] {
        &self.row_ptr
    }

    pub fn col_idx(&self) -> &[u32] {
        &self.col_idx
    }

    pub fn values(&self) -> &[f64] {
        &self.values
    }

    /// Bytes of all three lists.
    pub fn storage_bytes(&self) -> usize {
        self.metadata_bytes() + size_of_val(self.values.as_slice())
    }

    /// Bytes of pointers and columns.
    pub fn metadata_bytes(&self) -> usize {
        size_of_val(self.row_ptr.as_slice()) + size_of_val(self.col_idx.as_slice())
    }
}
