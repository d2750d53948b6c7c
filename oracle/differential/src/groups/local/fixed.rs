//! Patterns, plans and gathers on larger graphs: word borders, chains, stars.

use super::cases::{all_three, of_entries, pattern, pattern_in, plan, plan_in, topology_of};
use super::{Call, rooms};
use crate::groups::csr32::Matrix;
use crate::groups::growth::{BORDERS, graphs, mask_of, seeds};
use crate::groups::mask::{Mask, full, random_right};
use crate::groups::topology::{Pair, near, of_pairs};
use crate::rng::Rng;

pub fn run(run: &mut dyn FnMut(Call)) {
    let mut rng = Rng::new(21);
    for side in [1, 2, 5, 200].into_iter().chain(BORDERS) {
        for mut entries in graphs(&mut rng, side) {
            if rng.once_in(2) {
                rng.shuffle(&mut entries);
            }
            let matrix = of_entries(side, &entries);
            for region in regions(&mut rng, side) {
                all_three(&matrix, &region, run);
            }
            in_rooms(&mut rng, &matrix, run);
        }
    }
    empty(run);
    without_pairs(run);
    dense(&mut rng, run);
    every_bit(run);
}

/// None, single nodes, few, half, most and all.
pub fn regions(rng: &mut Rng, side: usize) -> Vec<Mask> {
    let mut all = seeds(rng, side);
    all.push(random_right(rng, side));
    let every_third: Vec<usize> = (0..side).step_by(3).collect();
    all.push(mask_of(side, &every_third));
    let last: Vec<usize> = (side / 2..side).collect();
    all.push(mask_of(side, &last));
    all
}

fn in_rooms(rng: &mut Rng, matrix: &Matrix, run: &mut dyn FnMut(Call)) {
    let topology = topology_of(matrix);
    for region in [full(matrix.nrows), random_right(rng, matrix.nrows)] {
        let needed = rooms::of_plan(&topology, matrix, &region);
        for lengths in near(&needed[..3]) {
            run(pattern_in(&topology, &region, &lengths));
        }
        for lengths in near(&needed) {
            run(plan_in(&topology, matrix, &region, &lengths));
        }
    }
}

/// No nodes at all.
fn empty(run: &mut dyn FnMut(Call)) {
    let matrix = of_entries(0, &[]);
    let region = mask_of(0, &[]);
    all_three(&matrix, &region, run);
    let topology = topology_of(&matrix);
    for lengths in near(&[0, 1, 0]) {
        run(pattern_in(&topology, &region, &lengths));
    }
    for lengths in near(&[0, 1, 0, 1, 0]) {
        run(plan_in(&topology, &matrix, &region, &lengths));
    }
}

/// A region without pairs in a matrix with entries: all of them lead out of it
/// or stand in other rows. A matrix without entries.
fn without_pairs(run: &mut dyn FnMut(Call)) {
    for side in [2, 5, 65, 130] {
        let outside: Vec<Pair> = (1..side).map(|end| (end - 1, end)).collect();
        let even: Vec<usize> = (0..side).step_by(2).collect();
        for entries in [&outside[..], &[]] {
            let matrix = of_entries(side, entries);
            for region in [mask_of(side, &even), mask_of(side, &[])] {
                all_three(&matrix, &region, run);
                let topology = topology_of(&matrix);
                let needed = rooms::of_plan(&topology, &matrix, &region);
                for lengths in near(&needed) {
                    run(plan_in(&topology, &matrix, &region, &lengths));
                }
            }
        }
    }
}

/// Every pair stored: local numbers are ranks in words that are full or nearly
/// so; more members than a byte counts.
fn dense(rng: &mut Rng, run: &mut dyn FnMut(Call)) {
    for side in [8, 64, 65, 130, 300] {
        let entries: Vec<Pair> = (0..side * side)
            .map(|pair| (pair / side, pair % side))
            .collect();
        let matrix = of_entries(side, &entries);
        let topology = topology_of(&matrix);
        for region in regions(rng, side) {
            run(pattern(&topology, &region));
            if side < 300 || region.words[0].count_ones() < 64 {
                run(plan(&topology, &matrix, &region));
            }
        }
        all_three(&matrix, &full(side), run);
    }
}

/// One pair at each place of three words, in a region that holds both ends and
/// the nodes around them, or all but one of the ends.
fn every_bit(run: &mut dyn FnMut(Call)) {
    let side = 190;
    for node in 0..side {
        let topology = of_pairs(side, side, &[(node, side - 1 - node), (0, node)]);
        let matrix = of_entries(side, &[(node, side - 1 - node), (0, node)]);
        let mut region = full(side);
        run(pattern(&topology, &region));
        run(plan(&topology, &matrix, &region));
        region.words[node / 64] &= !(1 << (node % 64));
        run(pattern(&topology, &region));
        run(plan(&topology, &matrix, &region));
        let ends = mask_of(side, &[node, side - 1 - node]);
        run(pattern(&topology, &ends));
        run(plan(&topology, &matrix, &ends));
    }
}
