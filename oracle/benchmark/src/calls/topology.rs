//! Matrices and topologies: checking one, building one side or both, set
//! operations and statistics.

use std::cell::RefCell;

use hybit_original::{AbtmDualTopology, AbtmTopology, Csr32Matrix};
use hybit_port::*;

use crate::bench::{Bench, Case, Place};
use crate::lend::{Side, Topology, begins, lend};
use crate::measure::calls;

/// The lists of one side, as long as building needs them.
struct Lists {
    pointers: Vec<u32>,
    words: Vec<u32>,
    masks: Vec<u64>,
}

impl Lists {
    fn new(rows: usize, entries: usize) -> Self {
        Self {
            pointers: vec![0; rows + 1],
            words: vec![0; entries],
            masks: vec![0; entries],
        }
    }

    fn bytes(&self) -> usize {
        4 * self.pointers.len() + 4 * self.words.len() + 8 * self.masks.len()
    }

    fn hold(&self, side: &Side) -> bool {
        self.pointers == side.pointers
            && begins(&self.words, &side.words)
            && begins(&self.masks, &side.masks)
    }
}

pub fn one_side(bench: &mut Bench, place: Place, matrix: &Csr32Matrix) {
    let lists = RefCell::new(Lists::new(matrix.nrows(), matrix.nnz()));
    let port = calls(|_| {
        let Lists {
            pointers,
            words,
            masks,
        } = &mut *lists.borrow_mut();
        lend!(hybit_topology_from_csr32: matrix(matrix), write(pointers), write(words), write(masks))
    });
    let build = || AbtmTopology::from_csr32(matrix);
    let case = Case::call("from_csr32, one side", "", port)
        .beside(calls(|_| build()))
        .memory(lists.borrow().bytes(), build);
    bench.row(place, case, || {
        let rust = build().expect("an accepted matrix");
        lists.borrow().hold(&Side::of(&rust))
    });
}

pub fn both_sides(bench: &mut Bench, place: Place, matrix: &Csr32Matrix) {
    let entries = matrix.nnz();
    let (rows, columns) = (
        RefCell::new(Lists::new(matrix.nrows(), entries)),
        RefCell::new(Lists::new(matrix.ncols(), entries)),
    );
    let starts = RefCell::new(vec![0; matrix.ncols() + 1]);
    let order = RefCell::new(vec![0; entries]);
    let port = calls(|_| {
        let (rows, columns) = (&mut *rows.borrow_mut(), &mut *columns.borrow_mut());
        let (starts, order) = (&mut *starts.borrow_mut(), &mut *order.borrow_mut());
        lend!(hybit_dual_topology_from_csr32: matrix(matrix),
            write(rows.pointers), write(rows.words), write(rows.masks),
            write(columns.pointers), write(columns.words), write(columns.masks),
            write(starts), write(order))
    });
    let scratch = 4 * (matrix.ncols() + 1 + entries);
    let lent = rows.borrow().bytes() + columns.borrow().bytes() + scratch;
    let build = || AbtmDualTopology::from_csr32(matrix);
    let case = Case::call("from_csr32, both sides", "", port)
        .beside(calls(|_| build()))
        .memory(lent, build);
    bench.row(place, case, || {
        let rust = Topology::of(&build().expect("an accepted matrix"));
        rows.borrow().hold(&rust.rows) && columns.borrow().hold(&rust.columns)
    });
}

pub fn matrix_check(bench: &mut Bench, place: Place, matrix: &Csr32Matrix) {
    let validate = || lend!(hybit_csr32_validate: matrix(matrix));
    let case = Case::call("csr32 validate", "", calls(|_| validate()))
        .beside(calls(|_| matrix.validate()));
    bench.row(place, case, || {
        (validate().number == 0) == matrix.validate().is_ok()
    });
}

pub fn on_topology(bench: &mut Bench, place: Place, port: &Topology, rust: &AbtmDualTopology) {
    let rows = rust.row_topology();
    let validate = || lend!(hybit_topology_validate: side(port.rows));
    let case = Case::call("validate, one side", "", calls(|_| validate()))
        .beside(calls(|_| rows.validate()));
    bench.row(place, case, || {
        (validate().number == 0) == rows.validate().is_ok()
    });
    let validate = || lend!(hybit_dual_topology_validate: topology(port));
    let case = Case::call("validate, both sides", "", calls(|_| validate()))
        .beside(calls(|_| rust.validate()));
    bench.row(place, case, || {
        (validate().number == 0) == rust.validate().is_ok()
    });
    let stats = || lend!(hybit_dual_topology_stats: topology(port));
    let case =
        Case::call("stats, both sides", "", calls(|_| stats())).beside(calls(|_| rust.stats()));
    bench.row(place, case, || {
        let (ours, theirs) = (stats(), rust.stats());
        let figures = [theirs.structural_nnz, theirs.total_metadata_bytes()];
        [ours.structural_nnz, ours.total_metadata_bytes] == figures.map(|figure| figure as u64)
    });
    union(bench, place, port, rust);
}

/// Of the rows and the columns, as if both were sides of rows.
fn union(bench: &mut Bench, place: Place, port: &Topology, rust: &AbtmDualTopology) {
    let words = port.rows.words.len() + port.columns.words.len();
    let lists = RefCell::new(Lists::new(port.rows.nrows, words));
    let call = calls(|_| {
        let lists = &mut *lists.borrow_mut();
        lend!(hybit_topology_union: topology(port),
            write(lists.pointers), write(lists.words), write(lists.masks))
    });
    let unite = || rust.row_topology().union(rust.column_topology());
    let case = Case::call("union, one side", "rows and columns", call)
        .beside(calls(|_| unite()))
        .memory(lists.borrow().bytes(), unite);
    bench.row(place, case, || {
        let rust = unite().expect("sides of one size");
        lists.borrow().hold(&Side::of(&rust))
    });
}
