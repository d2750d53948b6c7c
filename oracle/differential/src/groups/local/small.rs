//! Small graphs, matrices and plans, all of a kind.

use super::cases::{
    all_three, gather_of, gathering, of_entries, pattern, pattern_in, plan, plan_in, square,
    topology_of,
};
use super::{Call, Gather, rooms};
use crate::groups::csr32::{Matrix, lists};
use crate::groups::growth::{each_graph, each_mask, pairs_of};
use crate::groups::topology::{near, pairs};

pub fn run(run: &mut dyn FnMut(Call)) {
    all_graphs(run);
    all_of_four(run);
    all_rooms(run);
    all_orders(run);
    all_topologies(run);
    all_plans(run);
}

/// A matrix for each set of entries, its rows rising or falling.
pub fn each_matrix(side: usize, falling: bool, work: &mut dyn FnMut(&Matrix)) {
    for chosen in 0..1 << (side * side) {
        let mut entries = pairs_of(side, chosen);
        if falling {
            entries.reverse();
        }
        work(&of_entries(side, &entries));
    }
}

/// Every graph of up to 3 nodes with all regions, its rows rising and falling.
fn all_graphs(run: &mut dyn FnMut(Call)) {
    for side in 0..=3 {
        for falling in [false, true] {
            each_matrix(side, falling, &mut |matrix| {
                each_mask(side, &mut |region| all_three(matrix, region, run));
            });
        }
    }
}

/// Every graph of 4 nodes: patterns of all regions; a plan and a gather of one
/// region in turn, and of the whole.
fn all_of_four(run: &mut dyn FnMut(Call)) {
    each_graph(4, &mut |topology| {
        each_mask(4, &mut |region| run(pattern(topology, region)));
    });
    let mut turn = 0;
    each_matrix(4, true, &mut |matrix| {
        let topology = topology_of(matrix);
        each_mask(4, &mut |region| {
            turn += 1;
            if turn % 7 == 0 || region.words[0] == 15 {
                run(plan(&topology, matrix, region));
                run(gather_of(&topology, matrix, region));
            }
        });
    });
}

/// Every graph of 2 nodes, its entries stored once and twice, with lists of many
/// lengths, enough or not.
fn all_rooms(run: &mut dyn FnMut(Call)) {
    for times in [1, 2] {
        each_matrix(2, false, &mut |matrix| {
            let matrix = of_entries(2, &pairs(matrix).repeat(times));
            let topology = topology_of(&matrix);
            each_mask(2, &mut |region| {
                let needed = rooms::of_plan(&topology, &matrix, region);
                for lengths in near(&needed[..3]) {
                    run(pattern_in(&topology, region, &lengths));
                }
                for lengths in near(&needed) {
                    run(plan_in(&topology, &matrix, region, &lengths));
                }
            });
        });
    }
}

/// Two rows of up to 3 entries in every stored order, repeated ones included;
/// and one row of up to 4 entries of 3 columns, between two others.
fn all_orders(run: &mut dyn FnMut(Call)) {
    let rows = lists(3, &[0, 1]);
    for first in &rows {
        for second in &rows {
            let matrix = square(&[first.clone(), second.clone()]);
            each_mask(2, &mut |region| all_three(&matrix, region, run));
        }
    }
    for middle in lists(4, &[0, 1, 2]) {
        let matrix = square(&[vec![2, 0], middle, vec![1, 1]]);
        each_mask(3, &mut |region| all_three(&matrix, region, run));
    }
}

/// Every matrix of two rows of up to 2 entries on every topology of 2 nodes.
fn all_topologies(run: &mut dyn FnMut(Call)) {
    let rows = lists(2, &[0, 1]);
    each_graph(2, &mut |topology| {
        for first in &rows {
            for second in &rows {
                let matrix = square(&[first.clone(), second.clone()]);
                each_mask(2, &mut |region| run(plan(topology, &matrix, region)));
            }
        }
    });
}

/// Every choice of up to 4 pointers from 0 to 3, of up to 3 sources from 0 to
/// 2, and of 0 to 3 values, fewer and more of them than the plan says, -0.0
/// among them; lists one short and one longer.
fn all_plans(run: &mut dyn FnMut(Call)) {
    let values = [-0.0, 0.1, -0.0, 0.7];
    let mut turn = 0;
    for source_ptr in lists(4, &[0, 1, 2, 3]) {
        for source_indices in lists(3, &[0, 1, 2]) {
            for source_value_len in 0..=3_usize {
                let mut lengths = vec![source_value_len, 3];
                turn += 1;
                if turn % 5 == 0 {
                    lengths.extend([source_value_len + 1, source_value_len.saturating_sub(1)]);
                }
                for length in lengths {
                    let right = gathering(&source_ptr, &source_indices, &values[..length]);
                    in_rooms(source_value_len, &right, run);
                }
            }
        }
    }
}

fn in_rooms(source_value_len: usize, right: &Gather, run: &mut dyn FnMut(Call)) {
    let pairs = right.pairs();
    for room in [pairs, pairs.saturating_sub(1), pairs + 1] {
        run(Call::Gather(Gather {
            source_value_len,
            out: rooms::values_lent(room),
            ..right.clone()
        }));
    }
}
