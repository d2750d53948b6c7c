//! Closure, field growth and owners with blocks over the borders of words.

use super::cases::{BORDERS, blocks_of, close, grow_field, grow_field_in, mask_of, owners};
use super::fixed::{graphs, one_way};
use super::{Call, rooms};
use crate::groups::layout::Layout;
use crate::groups::mask::{Mask, full, of_index, random_right, words_needed};
use crate::groups::topology::{Pair, Topology, of_pairs};
use crate::rng::Rng;

/// Sizes that make blocks start and end at the borders of words.
const SIZES: [u32; 12] = [1, 2, 3, 61, 62, 63, 64, 65, 66, 127, 128, 130];

pub fn run(run: &mut dyn FnMut(Call)) {
    let mut rng = Rng::new(12);
    every_node(run);
    closures(&mut rng, run);
    growths(&mut rng, run);
    slips(run);
    block_owners(&mut rng, run);
}

/// Layouts with a block in the middle of every size near the borders, from
/// each of their nodes alone.
fn every_node(run: &mut dyn FnMut(Call)) {
    for first in [1, 62, 63, 64, 65] {
        for middle in [1, 2, 63, 64, 65, 127, 128, 129, 130, 192, 200] {
            let layout = blocks_of(&[first, middle, 3]);
            let nodes = total(&layout);
            for node in 0..nodes {
                run(close(&layout, &of_index(nodes, node)));
            }
            for room in rooms::around(words_needed(nodes)) {
                for content in [0, u64::MAX] {
                    run(Call::Close {
                        layout: layout.clone(),
                        selected: of_index(nodes, nodes / 2),
                        out: vec![content; room],
                    });
                }
            }
            run(close(&layout, &full(nodes)));
            run(close(&layout, &mask_of(nodes, &[])));
        }
    }
}

fn closures(rng: &mut Rng, run: &mut dyn FnMut(Call)) {
    for _ in 0..4_000 {
        let layout = random_layout(rng, 12);
        let nodes = total(&layout);
        let selected = match rng.below(3) {
            0 => random_right(rng, nodes),
            1 => mask_of(nodes, &[rng.below(nodes), rng.below(nodes)]),
            _ => of_index(nodes, rng.below(nodes)),
        };
        run(close(&layout, &selected));
    }
}

pub fn random_layout(rng: &mut Rng, most: usize) -> Layout {
    let count = 1 + rng.below(most);
    let style = rng.below(4);
    let sizes: Vec<u32> = (0..count)
        .map(|_| match style {
            0 => 1 + rng.below(3) as u32,
            1 => 1 + rng.below(70) as u32,
            2 => rng.pick(&SIZES),
            _ => rng.pick(&[32, 64, 1, 63]),
        })
        .collect();
    blocks_of(&sizes)
}

pub fn total(layout: &Layout) -> usize {
    layout.offsets.last().copied().unwrap_or_default() as usize
}

/// Sides at the borders of words, cut into blocks of one size or at random, the
/// last one smaller; chains, stars and entries at random.
fn growths(rng: &mut Rng, run: &mut dyn FnMut(Call)) {
    for side in [5, 12, 200].into_iter().chain(BORDERS) {
        for layout in layouts(rng, side) {
            for pairs in graphs(rng, side) {
                let topology = of_pairs(side, side, &pairs);
                let seeds = [
                    mask_of(side, &[]),
                    of_index(side, 0),
                    of_index(side, rng.below(side)),
                    mask_of(side, &[rng.below(side), side - 1]),
                    full(side),
                ];
                for seeds in seeds {
                    for hops in hop_counts(rng, &topology, &layout, &seeds) {
                        run(grow_field(&topology, &layout, &seeds, hops));
                    }
                }
            }
            field_in_rooms(rng, side, &layout, run);
        }
    }
}

fn layouts(rng: &mut Rng, side: usize) -> Vec<Layout> {
    let mut all: Vec<Layout> = [1, 2, 3, 7, 31, 64, 65, 70, side]
        .into_iter()
        .filter(|&size| size <= side)
        .map(|size| blocks_of(&cut(side, || size)))
        .collect();
    for most in [3, 10, 70] {
        let sizes = cut(side, || 1 + rng.below(most));
        all.push(blocks_of(&sizes));
    }
    all
}

/// Blocks of these sizes until all nodes have one; the last may be smaller.
pub fn cut(side: usize, mut size: impl FnMut() -> usize) -> Vec<u32> {
    let mut sizes = vec![];
    let mut left = side;
    while left > 0 {
        let next = size().min(left);
        sizes.push(next as u32);
        left -= next;
    }
    sizes
}

/// 0, 1, 2, one of the numbers in between, the largest distance, one more, and
/// the farthest.
fn hop_counts(rng: &mut Rng, topology: &Topology, layout: &Layout, seeds: &Mask) -> Vec<u64> {
    let mut most = grow_field(topology, layout, seeds, u64::MAX);
    let most = super::expected::answer(&mut most).map_or(0, |answer| answer.values[1]);
    let between = 3 + rng.below(1 + most as usize) as u64;
    let mut all = vec![0, 1, 2, between, most.saturating_sub(1), most];
    all.extend([most + 1, 1 << 32, u64::MAX]);
    all.sort_unstable();
    all.dedup();
    all
}

fn field_in_rooms(rng: &mut Rng, side: usize, layout: &Layout, run: &mut dyn FnMut(Call)) {
    let topology = of_pairs(side, side, &one_way(rng, side, side));
    let seeds = of_index(side, rng.below(side));
    for lengths in rooms::near(words_needed(side)) {
        for hops in [0, 1, u64::MAX] {
            let lent = rooms::lent(lengths);
            run(grow_field_in(&topology, layout, &seeds, hops, lent));
        }
    }
}

/// A hop that lands inside of a block: only the closed block has the entry that
/// the next hop follows. A chain of such blocks, entered at their first or last
/// node and left at the other one.
fn slips(run: &mut dyn FnMut(Call)) {
    for size in [2, 3, 30, 64, 65] {
        let count = 6;
        let side = size * count;
        let layout = blocks_of(&vec![size as u32; count]);
        let into_first: Vec<Pair> = (1..count)
            .map(|block| (block * size - 1, block * size))
            .collect();
        let into_last: Vec<Pair> = (1..count)
            .map(|block| ((block - 1) * size, (block + 1) * size - 1))
            .collect();
        for pairs in [into_first, into_last] {
            for turned in [false, true] {
                let pairs: Vec<Pair> = pairs
                    .iter()
                    .map(|&(row, column)| if turned { (column, row) } else { (row, column) })
                    .collect();
                let topology = of_pairs(side, side, &pairs);
                for seed in [0, size - 1, side - 1, side / 2] {
                    for hops in 0..=count as u64 + 1 {
                        run(grow_field(&topology, &layout, &of_index(side, seed), hops));
                    }
                }
            }
        }
    }
}

/// Owners by block, then with one node of one block of another owner, out of
/// range or not, before or after a block whose first owner is out of range.
fn block_owners(rng: &mut Rng, run: &mut dyn FnMut(Call)) {
    for _ in 0..3_000 {
        let layout = random_layout(rng, 8);
        let blocks = layout.blocks.kinds.len();
        let ranks = rng.pick(&[1, 2, 4, 1_000, u32::MAX]);
        let mut list = vec![];
        for &size in &layout.blocks.components {
            let owner = (rng.next() % u64::from(ranks)) as u32;
            list.resize(list.len() + size as usize, owner);
        }
        run(owners(&layout, &list, ranks, blocks));
        run(owners(&layout, &list, ranks, blocks - 1));
        run(owners(&layout, &list, ranks, blocks + 3));
        for _ in 0..1 + rng.below(2) {
            let node = rng.below(list.len());
            list[node] = match rng.below(4) {
                0 => ranks,
                1 => ranks.wrapping_add(1),
                2 => ranks - 1,
                _ => list[rng.below(list.len())],
            };
            run(owners(&layout, &list, ranks, blocks));
            run(owners(&layout, &list, ranks, 0));
        }
    }
    // The last node of a block of several words, and one in the middle.
    let layout = blocks_of(&[3, 130, 2]);
    for node in [3, 4, 63, 64, 67, 131, 132] {
        for other in [1, 9] {
            let mut list = vec![2; 135];
            list[node] = other;
            run(owners(&layout, &list, 5, 3));
        }
    }
}
