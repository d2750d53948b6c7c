//! Growing a region, plain and by blocks of 3.

use std::cell::RefCell;

use hybit_original::{AbtmDualTopology, DofMask, grow_field_aware_region, grow_undirected_region};
use hybit_port::*;

use crate::bench::{Bench, Case, Place};
use crate::blocks::{Lists, layout, over};
use crate::lend::{Topology, lend};
use crate::measure::{calls, calls_in_a_row, without_rest};
use crate::repeated::*;
use crate::shapes::{one_in, one_seed};

/// The three masks that a growth is lent.
struct Lent {
    region: Vec<u64>,
    frontier: Vec<u64>,
    scratch: Vec<u64>,
}

impl Lent {
    fn new(nodes: usize) -> Self {
        let mask = vec![0; nodes.div_ceil(64)];
        Self {
            region: mask.clone(),
            frontier: mask.clone(),
            scratch: mask,
        }
    }

    fn bytes(&self) -> usize {
        8 * (self.region.len() + self.frontier.len() + self.scratch.len())
    }

    fn hold(&self, region: &DofMask, frontier: &DofMask) -> bool {
        self.region == region.words() && self.frontier == frontier.words()
    }
}

/// Seeds, hops, and whether the region is small.
fn regions(side: usize) -> [(&'static str, DofMask, u64, bool); 3] {
    [
        ("1 seed, 1 hop", one_seed(side), 1, true),
        ("1 seed, 4 hops", one_seed(side), 4, true),
        ("1 % seeds, 4 hops", one_in(side, 100, 0), 4, false),
    ]
}

/// Where `small` is false, the work alone of small regions is left out.
pub fn rows(
    bench: &mut Bench,
    place: Place,
    port: &Topology,
    rust: &AbtmDualTopology,
    small: bool,
) {
    for (input, seeds, hops, is_small) in regions(place.side) {
        let work = small || !is_small;
        plain(bench, place, input, (port, rust), (&seeds, hops), work);
        by_blocks(bench, place, input, (port, rust), (&seeds, hops), work);
    }
}

fn plain(
    bench: &mut Bench,
    place: Place,
    input: &str,
    (port, rust): (&Topology, &AbtmDualTopology),
    (seeds, hops): (&DofMask, u64),
    work: bool,
) {
    const CALL: &str = "grow_undirected_region";
    let lent = RefCell::new(Lent::new(place.side));
    let grow = || grow_undirected_region(rust, seeds, hops as usize);
    let agree = || {
        let grown = grow().expect("a growth");
        lent.borrow().hold(grown.region(), grown.frontier())
    };
    let call = calls(|_| {
        let lent = &mut *lent.borrow_mut();
        lend!(hybit_grow_undirected_region: topology(port), mask(seeds), value(hops),
            write(lent.region), write(lent.frontier), write(lent.scratch))
    });
    let case = Case::call(CALL, input, call)
        .beside(calls(|_| grow()))
        .memory(lent.borrow().bytes(), grow);
    bench.row(place, case, agree);
    if work {
        let again = without_rest(|times| {
            let lent = &mut *lent.borrow_mut();
            lend!(hybit_repeated_growth: topology(port), mask(seeds), value(hops), value(times),
                write(lent.region), write(lent.frontier), write(lent.scratch))
        });
        let case = Case::work(CALL, input, again).beside(calls_in_a_row(grow));
        bench.row(place, case, agree);
    }
}

fn by_blocks(
    bench: &mut Bench,
    place: Place,
    input: &str,
    (port, rust): (&Topology, &AbtmDualTopology),
    (seeds, hops): (&DofMask, u64),
    work: bool,
) {
    const CALL: &str = "grow_field_aware_region";
    let blocks = over(place.side, 3);
    let (lists, layout) = (Lists::of(&blocks), layout(&blocks));
    let lent = RefCell::new(Lent::new(place.side));
    let grow = || grow_field_aware_region(rust, &layout, seeds, hops as usize);
    let agree = || {
        let grown = grow().expect("a growth");
        lent.borrow().hold(grown.region(), grown.frontier())
    };
    let call = calls(|_| {
        let lent = &mut *lent.borrow_mut();
        lend!(hybit_grow_field_aware_region: topology(port), layout(lists), mask(seeds),
            value(hops), write(lent.region), write(lent.frontier), write(lent.scratch))
    });
    let case = Case::call(CALL, input, call)
        .beside(calls(|_| grow()))
        .memory(lent.borrow().bytes(), grow);
    bench.row(place, case, agree);
    if work {
        let again = without_rest(|times| {
            let lent = &mut *lent.borrow_mut();
            lend!(hybit_repeated_field_growth: topology(port), layout(lists), mask(seeds),
                value(hops), value(times),
                write(lent.region), write(lent.frontier), write(lent.scratch))
        });
        let case = Case::work(CALL, input, again).beside(calls_in_a_row(grow));
        bench.row(place, case, agree);
    }
}
