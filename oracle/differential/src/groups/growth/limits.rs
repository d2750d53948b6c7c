//! At the limits and past them. Few, as they are large.

use super::cases::{blocks_of, close, grow, grow_field, grow_in, mask_of, multiplicity, owners};
use super::fields::cut;
use super::{Call, Regions, rooms};
use crate::expected::{ENTRY_LIMIT, REGION_LIMIT, SIDE_LIMIT};
use crate::groups::mask::{Mask, of_index, words_needed};
use crate::groups::topology::{Pair, Topology, of_pairs};

pub fn run(run: &mut dyn FnMut(Call)) {
    largest(run);
    past(run);
    words(run);
    far_masks(run);
    layouts(run);
    most_regions(run);
    most_nodes(run);
}

/// The largest side, with links at both ends, and in the middle over a border.
fn largest(run: &mut dyn FnMut(Call)) {
    let last = SIDE_LIMIT - 1;
    let pairs: Vec<Pair> = vec![(0, last), (last, last - 64), (1 << 19, 0), (7, 1 << 19)];
    let topology = of_pairs(SIDE_LIMIT, SIDE_LIMIT, &pairs);
    let layout = blocks_of(&cut(SIDE_LIMIT, || 1 << 18));
    for (seed, hops) in [(0, 1), (last, 2), (7, u64::MAX)] {
        let seeds = of_index(SIDE_LIMIT, seed);
        run(grow(&topology, &seeds, hops));
        run(grow_field(&topology, &layout, &seeds, hops));
    }
    let seeds = of_index(SIDE_LIMIT, last);
    let words = words_needed(SIDE_LIMIT);
    for lengths in [[words - 1, words, words], [words, words, words + 1]] {
        run(grow_in(&topology, &seeds, 1, rooms::lent(lengths)));
    }
}

/// One more, in rows and columns, or in one of them.
fn past(run: &mut dyn FnMut(Call)) {
    let over = SIDE_LIMIT + 1;
    let topology = of_pairs(over, over, &[]);
    run(grow(&topology, &mask_of(over, &[]), 1));
    run(grow(&of_pairs(1, over, &[]), &mask_of(1, &[]), 1));
    let layout = blocks_of(&[1]);
    run(grow_field(&topology, &layout, &mask_of(1, &[]), 1));
    for far in [over, 1 << 32, usize::MAX] {
        for columns in [false, true] {
            let mut wrong: Topology = of_pairs(1, 1, &[(0, 0)]);
            let side = match columns {
                true => &mut wrong.columns,
                false => &mut wrong.rows,
            };
            side.nrows = far;
            run(grow(&wrong, &mask_of(1, &[0]), 1));
            run(grow_field(&wrong, &layout, &mask_of(1, &[0]), 1));
        }
    }
}

/// One word more than there may be in one of the lists, which is no right side
/// either.
fn words(run: &mut dyn FnMut(Call)) {
    let right = of_pairs(1, 1, &[(0, 0)]);
    let seeds = mask_of(1, &[0]);
    for columns in [false, true] {
        let mut masks = right.clone();
        let mut indices = right.clone();
        let [side, other] = [&mut masks, &mut indices].map(|topology| match columns {
            true => &mut topology.columns,
            false => &mut topology.rows,
        });
        side.masks.resize(ENTRY_LIMIT + 1, 0);
        other.word_indices.resize(ENTRY_LIMIT + 1, 0);
        run(grow(&masks, &seeds, 1));
        run(grow_field(&indices, &blocks_of(&[1]), &seeds, 1));
        run(grow(&indices, &seeds, 1));
    }
}

/// A mask's length over the limit is of the wrong length, not over a limit.
fn far_masks(run: &mut dyn FnMut(Call)) {
    let topology = of_pairs(1, 1, &[]);
    let layout = blocks_of(&[1]);
    for len in [
        SIDE_LIMIT,
        SIDE_LIMIT + 1,
        1 << 32,
        usize::MAX - 1,
        usize::MAX,
    ] {
        let seeds = Mask {
            len,
            words: vec![0],
        };
        run(grow(&topology, &seeds, 1));
        run(grow_field(&topology, &layout, &seeds, 1));
        run(close(&layout, &seeds));
    }
}

/// As many nodes as a layout may have and one more, in one block and in many.
fn layouts(run: &mut dyn FnMut(Call)) {
    for sizes in [
        vec![SIDE_LIMIT as u32],
        vec![SIDE_LIMIT as u32 + 1],
        vec![SIDE_LIMIT as u32, 1],
        cut(SIDE_LIMIT, || 1_000),
    ] {
        let layout = blocks_of(&sizes);
        for node in [0, SIDE_LIMIT - 1, SIDE_LIMIT / 2] {
            run(close(&layout, &of_index(SIDE_LIMIT, node)));
        }
        let mut list = vec![3; SIDE_LIMIT];
        run(owners(&layout, &list, 4, sizes.len()));
        list[SIDE_LIMIT - 1] = 2;
        run(owners(&layout, &list, 4, sizes.len()));
    }
    let singles = blocks_of(&vec![1; 70_000]);
    let nodes = 70_000;
    run(close(&singles, &mask_of(nodes, &[0, 63, 64, nodes - 1])));
    let list: Vec<u32> = (0..nodes as u32).collect();
    run(owners(&singles, &list, nodes as u32, nodes));
    run(owners(&singles, &list, nodes as u32 - 1, nodes));
}

/// As many regions as there may be and one more: all of the same nodes, so that
/// counts and pairs are the largest; without nodes; without words.
fn most_regions(run: &mut dyn FnMut(Call)) {
    for region_count in [
        REGION_LIMIT - 1,
        REGION_LIMIT,
        REGION_LIMIT + 1,
        1 << 32,
        usize::MAX,
    ] {
        let made = region_count.min(REGION_LIMIT + 1);
        for (node_count, word) in [(64, u64::MAX), (3, 5), (0, 0)] {
            let regions = Regions {
                node_count,
                region_count,
                words: vec![word; made * words_needed(node_count)],
            };
            run(multiplicity(&regions, node_count));
            for node in [0, 2] {
                run(Call::Weight {
                    regions: regions.clone(),
                    region: REGION_LIMIT as u64 - 2,
                    node,
                });
            }
        }
        run(multiplicity(
            &Regions {
                node_count: SIDE_LIMIT,
                region_count,
                words: vec![],
            },
            0,
        ));
    }
}

fn most_nodes(run: &mut dyn FnMut(Call)) {
    for node_count in [SIDE_LIMIT - 1, SIDE_LIMIT, SIDE_LIMIT + 1] {
        let mut words = vec![0; 2 * words_needed(node_count)];
        words[5] = u64::MAX;
        words[words_needed(node_count) + 5] = 1 << 63;
        let last = node_count - 1;
        words[words_needed(node_count) + last / 64] |= 1 << (last % 64);
        let regions = Regions {
            node_count,
            region_count: 2,
            words,
        };
        run(multiplicity(&regions, node_count));
        run(multiplicity(&regions, node_count - 1));
        for (region, node) in [(1, last), (0, last), (1, node_count), (0, 383)] {
            run(Call::Weight {
                regions: regions.clone(),
                region,
                node: node as u64,
            });
        }
    }
    for node_count in [1 << 32, usize::MAX - 63, usize::MAX] {
        for region_count in [0, 1, REGION_LIMIT + 1] {
            let regions = Regions {
                node_count,
                region_count,
                words: vec![],
            };
            run(multiplicity(&regions, 0));
            run(Call::Weight {
                regions,
                region: 0,
                node: 0,
            });
        }
    }
}
