//! Several regions: word borders, many regions, weights of all nodes.

use super::cases::{BORDERS, multiplicity, regions_of, wrong_regions};
use super::{Call, Regions};
use crate::groups::mask::{full, random_right, words_needed};
use crate::rng::Rng;

pub fn run(run: &mut dyn FnMut(Call)) {
    let mut rng = Rng::new(13);
    for nodes in [0, 1, 2, 200].into_iter().chain(BORDERS) {
        for count in [0, 1, 2, 3, 5, 9] {
            for regions in some(&mut rng, nodes, count) {
                of_regions(&regions, run);
            }
        }
    }
    many(run);
    wrong(run);
}

/// At random, the same again and again, full ones, empty ones.
fn some(rng: &mut Rng, nodes: usize, count: usize) -> Vec<Regions> {
    let made = |masks: Vec<Vec<u64>>| Regions {
        node_count: nodes,
        region_count: count,
        words: masks.concat(),
    };
    let same = random_right(rng, nodes).words;
    vec![
        made((0..count).map(|_| random_right(rng, nodes).words).collect()),
        made((0..count).map(|_| sparse(rng, nodes)).collect()),
        made(vec![same; count]),
        made(vec![full(nodes).words; count]),
        made(vec![vec![0; words_needed(nodes)]; count]),
    ]
}

fn sparse(rng: &mut Rng, nodes: usize) -> Vec<u64> {
    let [a, b] = [0; 2].map(|_| random_right(rng, nodes).words);
    a.iter().zip(b).map(|(a, b)| a & b & 0x1111).collect()
}

/// Counts in lists of many lengths, and the weight of every region and node.
pub fn of_regions(regions: &Regions, run: &mut dyn FnMut(Call)) {
    let nodes = regions.node_count;
    for room in [nodes, nodes.saturating_sub(1), 0, nodes + 1, nodes + 5] {
        run(multiplicity(regions, room));
    }
    run(multiplicity(regions, words_needed(nodes)));
    for region in 0..=regions.region_count as u64 {
        for node in 0..=nodes as u64 {
            weight(regions, region, node, run);
        }
    }
    for far in [1 << 32, (1 << 32) + 1, 1 << 63, u64::MAX] {
        weight(regions, far, 0, run);
        weight(regions, 0, far, run);
        weight(regions, far, far, run);
    }
}

fn weight(regions: &Regions, region: u64, node: u64, run: &mut dyn FnMut(Call)) {
    run(Call::Weight {
        regions: regions.clone(),
        region,
        node,
    });
}

/// Each node in one more region than the last: every divisor of 65,536 to 300
/// comes up, and every number that is none.
fn many(run: &mut dyn FnMut(Call)) {
    let nodes = 300;
    let own = words_needed(nodes);
    let mut words = vec![];
    for region in 0..nodes {
        let mut mask = full(nodes).words;
        for node in 0..region {
            mask[node / 64] &= !(1 << (node % 64));
        }
        words.extend(mask);
    }
    let regions = Regions {
        node_count: nodes,
        region_count: words.len() / own,
        words,
    };
    run(multiplicity(&regions, nodes));
    for node in 0..nodes as u64 {
        weight(&regions, 0, node, run);
        weight(&regions, node, node, run);
        weight(&regions, node + 1, node, run);
    }
}

fn wrong(run: &mut dyn FnMut(Call)) {
    for right in [
        regions_of(3, &[&[0, 1], &[1, 2], &[1]]),
        regions_of(65, &[&[0, 64], &[64], &[63]]),
        regions_of(127, &[&[126], &[0], &[1], &[2]]),
        regions_of(64, &[&[63], &[0]]),
        regions_of(0, &[&[]]),
        regions_of(5, &[]),
    ] {
        for regions in wrong_regions(&right) {
            for room in [right.node_count, 0] {
                run(multiplicity(&regions, room));
            }
            weight(&regions, 0, 0, run);
            weight(&regions, u64::MAX, 0, run);
        }
    }
}
