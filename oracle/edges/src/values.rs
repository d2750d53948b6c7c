//! Item 4: values that are not finite, at a gather.

use hybit_core::HybitError;
use hybit_original::{AbtmDualTopology, Csr32Matrix, DofMask, prepare_local_numeric_plan};

use crate::line;

pub fn run() {
    line(
        "4a",
        "gather_values of one source each, values NaN, infinity",
        "8",
        || gather(&[0, 1, 2], &[0, 1], &[f64::NAN, f64::INFINITY]),
    );
    line(
        "4b",
        "gather_values of two sources and one, values NaN, 1.0, infinity",
        "8",
        || gather(&[0, 2, 3], &[0, 0, 1], &[f64::NAN, 1.0, f64::INFINITY]),
    );
    line(
        "4c",
        "gather_values of two sources and one, values f64::MAX, f64::MAX, 1.0",
        "no refusal",
        || gather(&[0, 2, 3], &[0, 0, 1], &[f64::MAX, f64::MAX, 1.0]),
    );
}

/// Gathers `values` over a 2 by 2 matrix with both nodes in the region.
fn gather(row_ptr: &[u32], col_idx: &[u32], values: &[f64]) -> Result<Vec<f64>, HybitError> {
    let ones = vec![1.0; col_idx.len()];
    let matrix = Csr32Matrix::new(2, 2, row_ptr.to_vec(), col_idx.to_vec(), ones)?;
    let topology = AbtmDualTopology::from_csr32(&matrix)?;
    let region = DofMask::from_indices(2, &[0, 1])?;
    prepare_local_numeric_plan(&topology, &matrix, &region)?.gather_values(values)
}
