//! Plain growth on larger graphs: word borders, chains, stars, far hop counts.

use super::cases::{BORDERS, FAR, chain, grow, grow_in, mask_of, most_hops};
use super::{Call, rooms};
use crate::groups::mask::{Mask, full, of_index, words_needed};
use crate::groups::topology::{Pair, Topology, of_pairs};
use crate::rng::Rng;

pub fn run(run: &mut dyn FnMut(Call)) {
    let mut rng = Rng::new(11);
    for side in [1, 2, 5, 200].into_iter().chain(BORDERS) {
        for pairs in graphs(&mut rng, side) {
            let topology = of_pairs(side, side, &pairs);
            for seeds in seeds(&mut rng, side) {
                for hops in hop_counts(&topology, &seeds) {
                    run(grow(&topology, &seeds, hops));
                }
            }
            in_rooms(&mut rng, &topology, run);
        }
    }
    empty(run);
    one_word_of_several(run);
    long_chains(run);
}

/// Chains and stars of either direction and of both by turns, a circle, the
/// diagonal, two parts, and entries at random, one way only.
pub fn graphs(rng: &mut Rng, side: usize) -> Vec<Vec<Pair>> {
    let turned = |pairs: &[Pair]| pairs.iter().map(|&(row, column)| (column, row)).collect();
    let chain = chain(side, false);
    let star: Vec<Pair> = (1..side).map(|end| (0, end)).collect();
    let middle: Vec<Pair> = (0..side).map(|end| (side / 2, end)).collect();
    let mut all = vec![
        turned(&chain),
        turned(&star),
        turned(&middle),
        super::cases::chain(side, true),
        [chain.as_slice(), &[(side - 1, 0)]].concat(),
        (0..side).map(|node| (node, node)).collect(),
        chain
            .iter()
            .copied()
            .filter(|&(row, _)| row != side / 2)
            .collect(),
        // Far apart in turn: the ends, then what lies inside of them.
        (0..side / 2).map(|node| (node, side - 1 - node)).collect(),
        chain,
        star,
        middle,
        vec![],
    ];
    for entries in [side / 3, side, 2 * side] {
        all.push(one_way(rng, side, entries));
        all.push(any_way(rng, side, entries));
    }
    all
}

/// At random, no entry and its reverse; some of the columns below the row.
pub fn one_way(rng: &mut Rng, side: usize, entries: usize) -> Vec<Pair> {
    let mut pairs: Vec<Pair> = any_way(rng, side, entries);
    pairs.sort_unstable_by_key(|&(row, column)| (row.min(column), row.max(column)));
    pairs.dedup_by_key(|&mut (row, column)| (row.min(column), row.max(column)));
    pairs
}

pub fn any_way(rng: &mut Rng, side: usize, entries: usize) -> Vec<Pair> {
    if side == 0 {
        return vec![];
    }
    (0..entries)
        .map(|_| (rng.below(side), rng.below(side)))
        .collect()
}

/// None, one at either end and inside, at a word's border, few, all.
pub fn seeds(rng: &mut Rng, side: usize) -> Vec<Mask> {
    let mut all = vec![
        mask_of(side, &[]),
        of_index(side, 0),
        of_index(side, side - 1),
        of_index(side, rng.below(side)),
        of_index(side, 63.min(side - 1)),
        mask_of(side, &[rng.below(side), rng.below(side), rng.below(side)]),
        full(side),
    ];
    if side > 64 {
        all.push(of_index(side, 64));
    }
    all
}

/// 0, 1, 2, the largest distance, one more and one less, and far ones.
pub fn hop_counts(topology: &Topology, seeds: &Mask) -> Vec<u64> {
    let most = most_hops(topology, seeds);
    let mut all = vec![0, 1, 2, 3, most.saturating_sub(2), most.saturating_sub(1)];
    all.extend([most, most + 1]);
    all.extend(FAR);
    all.sort_unstable();
    all.dedup();
    all
}

fn in_rooms(rng: &mut Rng, topology: &Topology, run: &mut dyn FnMut(Call)) {
    let side = topology.rows.nrows;
    let seeds = of_index(side, rng.below(side));
    for lengths in rooms::near(words_needed(side)) {
        for hops in [0, 1, u64::MAX] {
            run(grow_in(topology, &seeds, hops, rooms::lent(lengths)));
        }
    }
    let none = mask_of(side, &[]);
    for lengths in [[words_needed(side) + 2; 3], [words_needed(side); 3]] {
        for hops in [0, 1] {
            run(grow_in(topology, &none, hops, rooms::lent(lengths)));
        }
    }
}

/// No nodes at all.
fn empty(run: &mut dyn FnMut(Call)) {
    let topology = of_pairs(0, 0, &[]);
    let none = mask_of(0, &[]);
    for lengths in rooms::near(0) {
        for hops in [0, 1, 9, u64::MAX] {
            run(grow_in(&topology, &none, hops, rooms::lent(lengths)));
        }
    }
}

/// Nodes whose row or column has several words: all must be followed, and each
/// counts.
fn one_word_of_several(run: &mut dyn FnMut(Call)) {
    let ends = [5, 63, 64, 70, 127, 128, 199];
    for center in [0, 64, 130] {
        let out: Vec<Pair> = ends.iter().map(|&end| (center, end)).collect();
        let into: Vec<Pair> = ends.iter().map(|&end| (end, center)).collect();
        for pairs in [&out, &into, &[out.as_slice(), &into].concat()] {
            let topology = of_pairs(200, 200, pairs);
            for seed in ends.into_iter().chain([center]) {
                for hops in [1, 2, 3] {
                    run(grow(&topology, &of_index(200, seed), hops));
                }
            }
        }
    }
}

/// Distances that reach past 64 and past 256.
fn long_chains(run: &mut dyn FnMut(Call)) {
    for turn in [false, true] {
        let topology = of_pairs(1_000, 1_000, &chain(1_000, turn));
        for seed in [0, 500, 999] {
            let seeds = of_index(1_000, seed);
            for hops in [63, 64, 65, 255, 256, 499, 500, 501, 998, 999, 1_000, 1_001] {
                run(grow(&topology, &seeds, hops));
            }
        }
    }
}
