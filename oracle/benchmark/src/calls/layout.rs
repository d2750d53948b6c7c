//! Layouts: building one, and the calls on one. The port checks the whole
//! layout at each call, the Rust once, in `new`.

use std::cell::RefCell;

use hybit_original::{DofBlock, FieldAwareDofLayout};
use hybit_port::*;

use crate::bench::{Bench, Case, Place};
use crate::blocks::{Lists, field_major, layout, over, random_ids, shuffled};
use crate::lend::lend;
use crate::measure::{calls, calls_on};

/// So many different nodes are asked for in turn.
const OPERANDS: usize = 1_000;

type Kind = (&'static str, fn(usize) -> Vec<DofBlock>);

const KINDS: [Kind; 5] = [
    ("blocks of 1", |side| over(side, 1)),
    ("blocks of 3", |side| over(side, 3)),
    ("two fields, field-major", field_major),
    ("two fields, shuffled", shuffled),
    ("random ids", random_ids),
];

pub fn rows(bench: &mut Bench, place: Place) {
    for (input, blocks) in KINDS {
        new(bench, place, input, &blocks(place.side));
    }
    for (input, blocks) in &KINDS[..2] {
        let blocks = blocks(place.side);
        on_layout(bench, place, input, &Lists::of(&blocks), &layout(&blocks));
    }
}

fn new(bench: &mut Bench, place: Place, input: &str, blocks: &[DofBlock]) {
    let lists = Lists::of(blocks);
    let out = RefCell::new(vec![0; blocks.len() + 1]);
    let port = calls(|_| {
        let mut out = out.borrow_mut();
        lend!(hybit_layout_new: blocks(lists), write(out))
    });
    let rust = calls_on(|_| blocks.to_vec(), FieldAwareDofLayout::new);
    let given = RefCell::new(Some(blocks.to_vec()));
    let case = Case::call("layout new", input, port)
        .beside(rust)
        .memory(8 * out.borrow().len(), || {
            FieldAwareDofLayout::new(given.take().unwrap_or_default())
        });
    bench.row(place, case, || {
        let rust = layout(blocks);
        let starts = (0..blocks.len()).map_while(|index| rust.block_range(index));
        let starts: Vec<u64> = starts.map(|range| range.start).collect();
        let end = [rust.total_dofs()];
        *out.borrow() == [&starts[..], &end].concat()
    });
}

fn on_layout(
    bench: &mut Bench,
    place: Place,
    input: &str,
    lists: &Lists,
    rust: &FieldAwareDofLayout,
) {
    let check = calls(|_| lend!(hybit_layout_check: layout(lists)));
    bench.row(place, Case::call("layout check", input, check), || {
        lend!(hybit_layout_check: layout(lists)).number == 0
    });
    let dof = |number: usize| (number % OPERANDS * 7_919 * 131) as u64 % rust.total_dofs();
    let locate = |number| lend!(hybit_layout_locate: layout(lists), value(dof(number)));
    let case =
        Case::call("locate", input, calls(locate)).beside(calls(|number| rust.locate(dof(number))));
    bench.row(place, case, || {
        (0..10).all(|number| {
            let found = rust.locate(dof(number)).expect("a node of the layout");
            let answer = locate(number);
            let place = [found.block_index as u64, u64::from(found.component)];
            answer.number == 0 && [answer.first, answer.second] == place
        })
    });
    let out = RefCell::new(vec![0; place.side.div_ceil(64)]);
    let field_mask = calls(|_| {
        let mut out = out.borrow_mut();
        lend!(hybit_layout_field_mask: layout(lists), value(0), write(out))
    });
    let case = Case::call("field_mask", input, field_mask)
        .beside(calls(|_| rust.field_mask(0)))
        .memory(8 * out.borrow().len(), || rust.field_mask(0));
    bench.row(place, case, || {
        let mask = rust.field_mask(0).expect("a mask");
        *out.borrow() == mask.words()
    });
}
