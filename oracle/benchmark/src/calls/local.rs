//! The local system of a region: pattern, numeric plan and gather.

use std::cell::RefCell;

use hybit_original::{
    AbtmDualTopology, AbtmLocalNumericPlan, AbtmLocalSubmatrixPattern, Csr32Matrix, DofMask,
    extract_local_submatrix_pattern, prepare_local_numeric_plan,
};
use hybit_port::*;

use crate::bench::{Bench, Case, Place};
use crate::lend::{Topology, lend};
use crate::measure::{calls, calls_in_a_row, without_rest};
use crate::repeated::*;
use crate::shapes::{numbered, region};

/// The lists of a plan, of just the needed lengths, and gathered values.
struct Lent {
    global_nodes: Vec<u32>,
    row_ptr: Vec<u32>,
    col_idx: Vec<u32>,
    source_ptr: Vec<u32>,
    source_indices: Vec<u32>,
    gathered: Vec<f64>,
}

impl Lent {
    fn for_plan(plan: &AbtmLocalNumericPlan) -> Self {
        let stats = plan.stats();
        Self {
            global_nodes: vec![0; stats.local_nodes],
            row_ptr: vec![0; stats.local_nodes + 1],
            col_idx: vec![0; stats.local_nnz],
            source_ptr: vec![0; stats.local_nnz + 1],
            source_indices: vec![0; stats.source_terms],
            gathered: vec![0.0; stats.local_nnz],
        }
    }

    fn pattern_bytes(&self) -> usize {
        4 * (self.global_nodes.len() + self.row_ptr.len() + self.col_idx.len())
    }

    fn plan_bytes(&self) -> usize {
        self.pattern_bytes() + 4 * (self.source_ptr.len() + self.source_indices.len())
    }

    fn hold(&self, pattern: &AbtmLocalSubmatrixPattern) -> bool {
        self.global_nodes == pattern.global_nodes()
            && self.row_ptr == pattern.row_ptr()
            && self.col_idx == pattern.col_idx()
    }
}

/// A region on both sides, and the lists that the port is lent.
struct Local<'a> {
    place: Place,
    input: String,
    matrix: &'a Csr32Matrix,
    port: &'a Topology,
    rust: &'a AbtmDualTopology,
    region: DofMask,
    plan: AbtmLocalNumericPlan,
    lent: RefCell<Lent>,
    /// Whether the work alone is measured.
    work: bool,
}

type Sides<'a> = (&'a Csr32Matrix, &'a Topology, &'a AbtmDualTopology);

impl<'a> Local<'a> {
    fn new(place: Place, (matrix, port, rust): Sides<'a>, percent: usize, work: bool) -> Self {
        let region = region(place.side, percent);
        let plan = prepare_local_numeric_plan(rust, matrix, &region).expect("a plan");
        let lent = RefCell::new(Lent::for_plan(&plan));
        let input = format!("{percent} % of the nodes");
        Self {
            place,
            input,
            matrix,
            port,
            rust,
            region,
            plan,
            lent,
            work,
        }
    }
}

/// Where `small` is false, the work alone of small regions is left out.
pub fn rows(bench: &mut Bench, place: Place, sides: Sides, small: bool) {
    for percent in [1, 30] {
        let local = Local::new(place, sides, percent, small || percent > 1);
        local.pattern(bench);
        local.plan(bench);
        local.gather(bench);
    }
}

/// The plan alone, the one of the three that depends on the order of a row's
/// entries.
pub fn plan_row(bench: &mut Bench, place: Place, sides: Sides) {
    Local::new(place, sides, 30, true).plan(bench);
}

impl Local<'_> {
    fn pattern(&self, bench: &mut Bench) {
        const CALL: &str = "extract_local_submatrix_pattern";
        let (place, port, region) = (self.place, self.port, &self.region);
        let rust = || extract_local_submatrix_pattern(self.rust, region);
        let agree = || self.lent.borrow().hold(self.plan.pattern());
        let call = calls(|_| {
            let lent = &mut *self.lent.borrow_mut();
            lend!(hybit_extract_local_submatrix_pattern: topology(port), mask(region),
                write(lent.global_nodes), write(lent.row_ptr), write(lent.col_idx))
        });
        let case = Case::call(CALL, &*self.input, call)
            .beside(calls(|_| rust()))
            .memory(self.lent.borrow().pattern_bytes(), rust);
        bench.row(place, case, agree);
        if self.work {
            let again = without_rest(|times| {
                let lent = &mut *self.lent.borrow_mut();
                lend!(hybit_repeated_pattern: topology(port), mask(region), value(times),
                    write(lent.global_nodes), write(lent.row_ptr), write(lent.col_idx))
            });
            let case = Case::work(CALL, &*self.input, again).beside(calls_in_a_row(rust));
            bench.row(place, case, agree);
        }
    }

    fn plan(&self, bench: &mut Bench) {
        const CALL: &str = "prepare_local_numeric_plan";
        let (place, port, region) = (self.place, self.port, &self.region);
        let matrix = self.matrix;
        let rust = || prepare_local_numeric_plan(self.rust, matrix, region);
        let call = calls(|_| {
            let lent = &mut *self.lent.borrow_mut();
            lend!(hybit_prepare_local_numeric_plan: topology(port), matrix(matrix), mask(region),
                write(lent.global_nodes), write(lent.row_ptr), write(lent.col_idx),
                write(lent.source_ptr), write(lent.source_indices))
        });
        let case = Case::call(CALL, &*self.input, call)
            .beside(calls(|_| rust()))
            .memory(self.lent.borrow().plan_bytes(), rust);
        bench.row(place, case, || self.plan_agrees());
        if self.work {
            let again = without_rest(|times| {
                let lent = &mut *self.lent.borrow_mut();
                lend!(hybit_repeated_plan: topology(port), matrix(matrix), mask(region),
                    value(times), write(lent.global_nodes), write(lent.row_ptr),
                    write(lent.col_idx), write(lent.source_ptr), write(lent.source_indices))
            });
            let case = Case::work(CALL, &*self.input, again).beside(calls_in_a_row(rust));
            bench.row(place, case, || self.plan_agrees());
        }
    }

    /// The Rust keeps a plan's sources to itself: what each side gathers of
    /// numbered values shows them.
    fn plan_agrees(&self) -> bool {
        let values = numbered(self.matrix);
        let gathered = self.plan.gather_values(&values).expect("values");
        let lent = &mut *self.lent.borrow_mut();
        let answer = lend!(hybit_gather_values: read(lent.source_ptr), read(lent.source_indices),
            value(values.len()), read(values), write(lent.gathered));
        answer.number == 0 && lent.gathered == gathered && lent.hold(self.plan.pattern())
    }

    fn gather(&self, bench: &mut Bench) {
        const CALL: &str = "gather_values";
        let values = numbered(self.matrix);
        let rust = || self.plan.gather_values(&values);
        let agree = || self.lent.borrow().gathered == rust().expect("values");
        let call = calls(|_| {
            let lent = &mut *self.lent.borrow_mut();
            lend!(hybit_gather_values: read(lent.source_ptr), read(lent.source_indices),
                value(values.len()), read(values), write(lent.gathered))
        });
        let case = Case::call(CALL, &*self.input, call)
            .beside(calls(|_| rust()))
            .memory(8 * self.lent.borrow().gathered.len(), rust);
        bench.row(self.place, case, agree);
        // Its checks take no longer than on other shapes, so its work is always
        // measured.
        let again = without_rest(|times| {
            let lent = &mut *self.lent.borrow_mut();
            lend!(hybit_repeated_gather: read(lent.source_ptr), read(lent.source_indices),
                value(values.len()), read(values), value(times), write(lent.gathered))
        });
        let case = Case::work(CALL, &*self.input, again).beside(calls_in_a_row(rust));
        bench.row(self.place, case, agree);
    }
}
