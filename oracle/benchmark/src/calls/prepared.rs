//! A region prepared from matrix, layout and seeds in one call, beside the
//! Rust's topology and one region on it.

use std::cell::RefCell;

use hybit_original::{
    Csr32Matrix, DofBlock, DofMask, FieldAwareDofLayout, PreparedFieldAwareLocalRegion,
    PreparedFieldAwareTopology,
};
use hybit_port::*;

use crate::bench::{Bench, Case, Place};
use crate::blocks::{Lists, layout, over};
use crate::lend::{begins, lend};
use crate::measure::calls;
use crate::shapes::{numbered, one_in, one_seed};

const HOPS: u64 = 4;

/// The lists of all steps, of just the needed lengths.
pub struct Lent {
    row_pointers: Vec<u32>,
    row_words: Vec<u32>,
    row_masks: Vec<u64>,
    column_pointers: Vec<u32>,
    column_words: Vec<u32>,
    column_masks: Vec<u64>,
    starts: Vec<u32>,
    order: Vec<u32>,
    region: Vec<u64>,
    frontier: Vec<u64>,
    scratch: Vec<u64>,
    global_nodes: Vec<u32>,
    row_ptr: Vec<u32>,
    col_idx: Vec<u32>,
    source_ptr: Vec<u32>,
    source_indices: Vec<u32>,
}

impl Lent {
    pub fn for_matrix(matrix: &Csr32Matrix) -> Self {
        let (side, entries) = (matrix.nrows(), matrix.nnz());
        let words = side.div_ceil(64);
        Self {
            row_pointers: vec![0; side + 1],
            row_words: vec![0; entries],
            row_masks: vec![0; entries],
            column_pointers: vec![0; side + 1],
            column_words: vec![0; entries],
            column_masks: vec![0; entries],
            starts: vec![0; side + 1],
            order: vec![0; entries],
            region: vec![0; words],
            frontier: vec![0; words],
            scratch: vec![0; words],
            global_nodes: vec![0; side],
            row_ptr: vec![0; side + 1],
            col_idx: vec![0; entries],
            source_ptr: vec![0; entries + 1],
            source_indices: vec![0; entries],
        }
    }

    pub fn prepare(
        &mut self,
        matrix: &Csr32Matrix,
        layout: &Lists,
        seeds: &DofMask,
    ) -> PreparedAnswer {
        lend!(hybit_prepare_region: matrix(matrix), layout(layout), mask(seeds), value(HOPS),
            write(self.row_pointers), write(self.row_words), write(self.row_masks),
            write(self.column_pointers), write(self.column_words), write(self.column_masks),
            write(self.starts), write(self.order),
            write(self.region), write(self.frontier), write(self.scratch),
            write(self.global_nodes), write(self.row_ptr), write(self.col_idx),
            write(self.source_ptr), write(self.source_indices))
    }

    fn bytes(matrix: &Csr32Matrix) -> usize {
        let (side, entries) = (matrix.nrows(), matrix.nnz());
        let topology = 2 * (4 * (side + 1) + 12 * entries) + 4 * (side + 1 + entries);
        let masks = 3 * 8 * side.div_ceil(64);
        let pattern = 4 * (side + side + 1 + entries);
        let sources = 4 * (entries + 1 + entries);
        topology + masks + pattern + sources
    }

    /// By numbered values the gather shows the sources.
    fn hold(&self, matrix: &Csr32Matrix, rust: &PreparedFieldAwareLocalRegion) -> bool {
        let pattern = rust.pattern();
        let values = numbered(matrix);
        let gathered = rust.gather_values(&values).expect("values");
        let pointers = &self.source_ptr[..gathered.len() + 1];
        let terms = pointers.last().map_or(0, |&end| end as usize);
        let sources = &self.source_indices[..terms];
        let mut out = vec![0.0; gathered.len()];
        let answer = lend!(hybit_gather_values: read(pointers), read(sources),
            value(values.len()), read(values), write(out));
        answer.number == 0
            && out == gathered
            && self.region == rust.region().words()
            && begins(&self.global_nodes, pattern.global_nodes())
            && begins(&self.row_ptr, pattern.row_ptr())
            && begins(&self.col_idx, pattern.col_idx())
    }
}

/// The Rust's topology and one region on it. Both are handed out, so that
/// dropping them takes no time.
pub fn original<'a>(
    matrix: &'a Csr32Matrix,
    layout: &'a FieldAwareDofLayout,
    seeds: &DofMask,
) -> (
    PreparedFieldAwareTopology<'a>,
    PreparedFieldAwareLocalRegion,
) {
    let topology = PreparedFieldAwareTopology::new(matrix, layout);
    let topology = topology.expect("an accepted matrix and layout");
    let region = topology.prepare_region(seeds, HOPS as usize);
    let region = region.expect("accepted seeds");
    (topology, region)
}

/// Each peak has three unknowns.
pub fn peaks(side: usize) -> Vec<DofBlock> {
    over(side, 3)
}

pub fn few_seeds(side: usize) -> DofMask {
    one_in(side, 100, 0)
}

pub fn rows(bench: &mut Bench, place: Place, matrix: &Csr32Matrix) {
    let blocks = peaks(place.side);
    let (lists, layout) = (Lists::of(&blocks), layout(&blocks));
    let lent = RefCell::new(Lent::for_matrix(matrix));
    for (input, seeds) in [
        ("1 seed, 4 hops", one_seed(place.side)),
        ("1 % seeds, 4 hops", few_seeds(place.side)),
    ] {
        let rust = || original(matrix, &layout, &seeds);
        let port = calls(|_| lent.borrow_mut().prepare(matrix, &lists, &seeds));
        let case = Case::call("prepare_region", input, port)
            .beside(calls(|_| rust()))
            .memory(Lent::bytes(matrix), rust);
        bench.row(place, case, || lent.borrow().hold(matrix, &rust().1));
    }
}
