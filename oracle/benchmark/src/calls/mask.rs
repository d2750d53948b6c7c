//! Operations on masks.

use std::cell::RefCell;

use hybit_port::*;

use crate::bench::{Bench, Case, Place};
use crate::lend::lend;
use crate::measure::calls;
use crate::shapes::{one_in, region};

pub fn rows(bench: &mut Bench, place: Place) {
    union(bench, place);
    for percent in [1, 30] {
        members(bench, place, percent);
    }
}

fn union(bench: &mut Bench, place: Place) {
    let (mask, other) = (region(place.side, 30), one_in(place.side, 100, 0));
    let words = RefCell::new(mask.words().to_vec());
    let port = calls(|_| {
        let mut words = words.borrow_mut();
        lend!(hybit_mask_union_assign: value(mask.len()), write(words), mask(other))
    });
    let rust = RefCell::new(mask.clone());
    let case = Case::call("union_assign", "30 % of the nodes and 1 %", port)
        .beside(calls(|_| rust.borrow_mut().union_assign(&other)));
    bench.row(place, case, || *words.borrow() == rust.borrow().words());
}

fn members(bench: &mut Bench, place: Place, percent: usize) {
    let mask = region(place.side, percent);
    let input = format!("{percent} % of the nodes");
    let count = || lend!(hybit_mask_count_ones: mask(mask));
    let case =
        Case::call("count_ones", &*input, calls(|_| count())).beside(calls(|_| mask.count_ones()));
    bench.row(place, case, || count().value == mask.count_ones() as u64);
    let out = RefCell::new(vec![0; mask.count_ones()]);
    let port = calls(|_| {
        let mut out = out.borrow_mut();
        lend!(hybit_mask_indices: mask(mask), write(out))
    });
    let case = Case::call("indices", &*input, port)
        .beside(calls(|_| mask.indices()))
        .memory(8 * out.borrow().len(), || mask.indices());
    bench.row(place, case, || {
        let indices = mask.indices().into_iter().map(|index| index as u64);
        indices.eq(out.borrow().iter().copied())
    });
}
