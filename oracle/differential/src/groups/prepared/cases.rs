//! What the cases share.

use super::{Call, Lent, Owners, Prepare, rooms};
use crate::groups::csr32::Matrix;
use crate::groups::layout::Layout;
use crate::groups::mask::Mask;

/// What a list of gathered values holds before: the bits of -77.5.
const NOT_GATHERED: u64 = 0xc053_6000_0000_0000;

/// With lists of just the needed lengths.
pub fn prepare(matrix: &Matrix, layout: &Layout, seeds: &Mask, hops: u64) -> Call {
    prepare_in(matrix, layout, seeds, hops, &rooms::needed(matrix))
}

pub fn prepare_in(
    matrix: &Matrix,
    layout: &Layout,
    seeds: &Mask,
    hops: u64,
    lengths: &[usize],
) -> Call {
    prepare_with(matrix, layout, seeds, hops, rooms::lent(lengths))
}

/// The values are gathered into a list that is long enough for any region.
pub fn prepare_with(matrix: &Matrix, layout: &Layout, seeds: &Mask, hops: u64, lent: Lent) -> Call {
    Call::Prepare(Box::new(Prepare {
        matrix: matrix.clone(),
        layout: layout.clone(),
        seeds: seeds.clone(),
        hops,
        lent,
        gathered: vec![NOT_GATHERED; matrix.col_idx.len()],
        gather_told: vec![],
    }))
}

pub fn owners(
    matrix: &Matrix,
    layout: &Layout,
    dof_owners: &[u32],
    ranks: u32,
    room: usize,
) -> Call {
    Call::Owners(Box::new(Owners {
        matrix: matrix.clone(),
        layout: layout.clone(),
        dof_owners: dof_owners.to_vec(),
        ranks,
        out: vec![77; room],
    }))
}
