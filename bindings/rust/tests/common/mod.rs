//! Small matrices and layouts, as document 01 writes them.

// Not every test uses all of them.
#![allow(dead_code)]

use hybit_matrix::{Csr32Matrix, DofBlock, DofEntityKind, DofMask, FieldAwareDofLayout, Refusal};

/// A square matrix of entries that are sorted by row.
pub fn matrix(side: usize, entries: &[(u32, u32, f64)]) -> Csr32Matrix {
    let row_ptr = (0..=side).map(|row| {
        let before = entries.iter().filter(|(own, ..)| (*own as usize) < row);
        before.count() as u32
    });
    Csr32Matrix::new(
        side,
        side,
        row_ptr.collect(),
        entries.iter().map(|&(_, column, _)| column).collect(),
        entries.iter().map(|&(.., value)| value).collect(),
    )
    .expect("entries in range")
}

/// Entries (0,1), (1,2), side 3.
pub fn chain() -> Csr32Matrix {
    matrix(3, &[(0, 1, 1.0), (1, 2, 1.0)])
}

pub fn mask(len: usize, nodes: &[usize]) -> DofMask {
    DofMask::from_indices(len, nodes).expect("nodes below the length")
}

/// Blocks of these components, told apart by their ids.
pub fn blocks(components: &[u32]) -> Result<FieldAwareDofLayout, Refusal> {
    let block = |(id, &components): (usize, &u32)| DofBlock {
        entity_kind: DofEntityKind::Node,
        entity_id: id as u64,
        field_id: 0,
        components,
    };
    FieldAwareDofLayout::new(components.iter().enumerate().map(block).collect())
}
