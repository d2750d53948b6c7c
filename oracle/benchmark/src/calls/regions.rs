//! Closing a region to blocks, the owners of blocks, and how many regions hold
//! a node.

use std::cell::RefCell;

use hybit_original::{
    DofMask, FieldAwareDofLayout, close_to_field_blocks, field_block_owners, region_multiplicity,
};
use hybit_port::*;

use crate::bench::{Bench, Case, Place};
use crate::blocks::{Lists, layout, over};
use crate::lend::lend;
use crate::measure::{calls, calls_in_a_row, without_rest};
use crate::repeated::hybit_repeated_closing;
use crate::shapes::{SCATTERED, one_in, one_seed, region, scattered};

pub fn rows(bench: &mut Bench, place: Place) {
    for (size, named) in [(3, "blocks of 3"), (1, "blocks of 1")] {
        let blocks = over(place.side, size);
        let (lists, layout) = (Lists::of(&blocks), layout(&blocks));
        let small = (format!("{named}, 1 node"), one_seed(place.side));
        let large = (
            format!("{named}, 30 % of the nodes"),
            region(place.side, 30),
        );
        let scattered = (
            format!("{named}, 30 {SCATTERED}"),
            scattered(place.side, 30),
        );
        for (input, selected) in [small, large, scattered] {
            close(bench, place, &input, (&lists, &layout), &selected);
        }
        owners(bench, place, named, (&lists, &layout));
    }
    multiplicity(bench, place, "64 regions of 1 %", 100);
    multiplicity(bench, place, "64 regions of 25 %", 4);
}

fn close(
    bench: &mut Bench,
    place: Place,
    input: &str,
    (lists, layout): (&Lists, &FieldAwareDofLayout),
    selected: &DofMask,
) {
    const CALL: &str = "close_to_field_blocks";
    let out = RefCell::new(vec![0; selected.words().len()]);
    let rust = || close_to_field_blocks(layout, selected);
    let agree = || *out.borrow() == rust().expect("a closure").words();
    let call = calls(|_| {
        let mut out = out.borrow_mut();
        lend!(hybit_close_to_field_blocks: layout(lists), mask(selected), write(out))
    });
    let case = Case::call(CALL, input, call)
        .beside(calls(|_| rust()))
        .memory(8 * out.borrow().len(), rust);
    bench.row(place, case, agree);
    let again = without_rest(|times| {
        let mut out = out.borrow_mut();
        lend!(hybit_repeated_closing: layout(lists), mask(selected), value(times), write(out))
    });
    let case = Case::work(CALL, input, again).beside(calls_in_a_row(rust));
    bench.row(place, case, agree);
}

fn owners(
    bench: &mut Bench,
    place: Place,
    input: &str,
    (lists, layout): (&Lists, &FieldAwareDofLayout),
) {
    const RANKS: u32 = 64;
    let blocks = lists.components.iter().zip(0..);
    let owners: Vec<u32> = blocks
        .flat_map(|(&size, block)| (0..size).map(move |_| block % RANKS))
        .collect();
    let out = RefCell::new(vec![0; lists.kinds.len()]);
    let call = calls(|_| {
        let mut out = out.borrow_mut();
        lend!(hybit_field_block_owners: layout(lists), read(owners), value(RANKS), write(out))
    });
    let rust = || field_block_owners(layout, &owners, RANKS);
    let case = Case::call("field_block_owners", format!("{input}, 64 ranks"), call)
        .beside(calls(|_| rust()))
        .memory(4 * out.borrow().len(), rust);
    bench.row(place, case, || *out.borrow() == rust().expect("owners"));
}

/// Each region holds one in so many nodes, the next region the next ones.
fn multiplicity(bench: &mut Bench, place: Place, input: &str, distance: usize) {
    const REGIONS: usize = 64;
    let masks: Vec<DofMask> = (0..REGIONS)
        .map(|region| one_in(place.side, distance, region % distance))
        .collect();
    let words: Vec<&[u64]> = masks.iter().map(|mask| mask.words()).collect();
    let words = words.concat();
    let counts = RefCell::new(vec![0; place.side]);
    let call = calls(|_| {
        let mut counts = counts.borrow_mut();
        lend!(hybit_region_multiplicity: value(place.side), value(REGIONS), read(words),
            write(counts))
    });
    let rust = || region_multiplicity(place.side, &masks);
    let case = Case::call("region_multiplicity", input, call)
        .beside(calls(|_| rust()))
        .memory(4 * counts.borrow().len(), rust);
    bench.row(place, case, || {
        *counts.borrow() == rust().expect("counts").counts()
    });
}
