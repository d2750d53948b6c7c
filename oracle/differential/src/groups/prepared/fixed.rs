//! Prepared regions on larger graphs: word borders, chains, stars, far hop
//! counts, blocks over the borders of words, duplicate entries.

use super::Call;
use super::cases::{prepare, prepare_in};
use super::rooms::needed;
use crate::groups::csr32::Matrix;
use crate::groups::growth::{BORDERS, blocks_of, chain, cut, graphs, mask_of, seeds};
use crate::groups::layout::Layout;
use crate::groups::local::{of_entries, valued};
use crate::groups::mask::{full, of_index};
use crate::groups::topology::{ORDERS, Pair, near, ordered};
use crate::rng::Rng;

const HOPS: [u64; 6] = [0, 1, 2, 5, 1 << 32, u64::MAX];

pub fn run(run: &mut dyn FnMut(Call)) {
    let mut rng = Rng::new(31);
    for side in [1, 2, 5, 200].into_iter().chain(BORDERS) {
        for mut entries in graphs(&mut rng, side) {
            if rng.once_in(2) {
                rng.shuffle(&mut entries);
            }
            let matrix = of_entries(side, &entries);
            for layout in layouts(&mut rng, side) {
                from_seeds(&mut rng, &matrix, &layout, run);
            }
        }
        in_rooms(&mut rng, side, run);
    }
    stored_orders(&mut rng, run);
    long_chains(run);
}

/// Single nodes, blocks of 3 or of a word, and blocks at random.
fn layouts(rng: &mut Rng, side: usize) -> Vec<Layout> {
    let mut all: Vec<Layout> = [1, 3, 64]
        .into_iter()
        .filter(|&size| size <= side)
        .map(|size| blocks_of(&cut(side, || size)))
        .collect();
    let most = rng.pick(&[3, 10, 70]);
    all.push(blocks_of(&cut(side, || 1 + rng.below(most))));
    all
}

fn from_seeds(rng: &mut Rng, matrix: &Matrix, layout: &Layout, run: &mut dyn FnMut(Call)) {
    for seeds in seeds(rng, matrix.nrows) {
        let hops = rng.pick(&HOPS);
        for hops in [hops, rng.below(4) as u64] {
            run(prepare(matrix, layout, &seeds, hops));
        }
    }
}

/// Each list alone too short or longer; all of them longer.
fn in_rooms(rng: &mut Rng, side: usize, run: &mut dyn FnMut(Call)) {
    let matrix = valued(ordered(rng, ORDERS[2], side, side, 4));
    let layout = blocks_of(&cut(side, || 2));
    let seeds = of_index(side, rng.below(side));
    for lengths in near(&needed(&matrix)) {
        for hops in [0, 1, u64::MAX] {
            run(prepare_in(&matrix, &layout, &seeds, hops, &lengths));
        }
    }
}

/// Rows in every order in which callers store them, some entries twice.
fn stored_orders(rng: &mut Rng, run: &mut dyn FnMut(Call)) {
    for order in ORDERS {
        for side in [3, 12, 66, 130] {
            for densest in [1, 3, 9] {
                let matrix = valued(ordered(rng, order, side, side, densest));
                for layout in layouts(rng, side) {
                    for seeds in [of_index(side, rng.below(side)), full(side)] {
                        for hops in [0, 1, 3] {
                            run(prepare(&matrix, &layout, &seeds, hops));
                        }
                    }
                }
            }
        }
    }
}

/// Distances that reach past 64 and past 256, node by node and block by block.
fn long_chains(run: &mut dyn FnMut(Call)) {
    for turn in [false, true] {
        let entries: Vec<Pair> = chain(600, turn);
        let matrix = of_entries(600, &entries);
        for size in [1, 2, 7] {
            let layout = blocks_of(&cut(600, || size));
            for hops in [63, 64, 65, 255, 256, 599, 600, u64::MAX] {
                run(prepare(&matrix, &layout, &of_index(600, 0), hops));
                run(prepare(&matrix, &layout, &mask_of(600, &[300]), hops));
            }
        }
    }
}
