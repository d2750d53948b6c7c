//! Small graphs and layouts, all of a kind.

use super::Call;
use super::cases::{owners, prepare, prepare_in};
use super::rooms::needed;
use crate::groups::csr32::lists;
use crate::groups::growth::{blocks_of, cuts, each_mask};
use crate::groups::layout::Layout;
use crate::groups::local::{each_matrix, of_entries, square};
use crate::groups::topology::near;

pub fn run(run: &mut dyn FnMut(Call)) {
    all_graphs(run);
    all_orders(run);
    all_rooms(run);
    all_owners(run);
}

fn layouts(side: usize) -> Vec<Layout> {
    cuts(side).iter().map(|sizes| blocks_of(sizes)).collect()
}

/// Every graph of up to 3 nodes, its rows rising and falling, under every
/// layout from all seeds by 0 to 3 hops.
fn all_graphs(run: &mut dyn FnMut(Call)) {
    for side in 1..=3 {
        for layout in layouts(side) {
            for falling in [false, true] {
                each_matrix(side, falling, &mut |matrix| {
                    each_mask(side, &mut |seeds| {
                        for hops in 0..=3 {
                            run(prepare(matrix, &layout, seeds, hops));
                        }
                    });
                });
            }
        }
    }
}

/// Two rows of up to 3 entries in every stored order, repeated ones included.
fn all_orders(run: &mut dyn FnMut(Call)) {
    let rows = lists(3, &[0, 1]);
    for first in &rows {
        for second in &rows {
            let matrix = square(&[first.clone(), second.clone()]);
            for layout in layouts(2) {
                each_mask(2, &mut |seeds| {
                    for hops in [0, 1] {
                        run(prepare(&matrix, &layout, seeds, hops));
                    }
                });
            }
        }
    }
}

/// Every graph of 2 nodes with lists of many lengths, enough or not.
fn all_rooms(run: &mut dyn FnMut(Call)) {
    for falling in [false, true] {
        each_matrix(2, falling, &mut |matrix| {
            for layout in layouts(2) {
                each_mask(2, &mut |seeds| {
                    for lengths in near(&needed(matrix)) {
                        run(prepare_in(matrix, &layout, seeds, 1, &lengths));
                    }
                });
            }
        });
    }
}

/// Every layout of up to 3 nodes with all lists of owners 0 to 2, up to one
/// owner too many, and up to 3 ranks; lists of many lengths.
fn all_owners(run: &mut dyn FnMut(Call)) {
    for nodes in 1..=3 {
        let matrix = of_entries(nodes, &[(0, nodes - 1)]);
        for layout in layouts(nodes) {
            let blocks = layout.blocks.kinds.len();
            for list in lists(nodes + 1, &[0, 1, 2]) {
                for ranks in 0..=3 {
                    for room in [blocks, blocks - 1, blocks + 2] {
                        run(owners(&matrix, &layout, &list, ranks, room));
                    }
                }
            }
        }
    }
}
