//! Random cases.

use super::cases::{owners, prepare_with};
use super::{Call, rooms};
use crate::expected::SIDE_LIMIT;
use crate::groups::csr32::{Matrix, damage, finite};
use crate::groups::growth::{
    any_way, chain, one_way, random_hops, random_layout, random_seeds, random_side,
};
use crate::groups::layout::Layout;
use crate::groups::local::of_entries;
use crate::groups::topology::{ORDERS, ordered};
use crate::rng::Rng;

/// One call at random; a third or so have a fault.
pub fn random(rng: &mut Rng) -> Call {
    let side = random_side(rng);
    let matrix = random_matrix(rng, side);
    let layout = random_layout(rng, side);
    if rng.once_in(5) {
        return random_owners(rng, &matrix, &layout);
    }
    let seeds = random_seeds(rng, side);
    let hops = random_hops(rng, side);
    let lent = rooms::random(rng, &rooms::needed(&matrix));
    prepare_with(&matrix, &layout, &seeds, hops, lent)
}

fn random_matrix(rng: &mut Rng, side: usize) -> Matrix {
    let mut matrix = right_matrix(rng, side);
    for value in &mut matrix.values {
        *value = finite(rng);
    }
    match rng.below(30) {
        0..3 => damage(rng, &mut matrix),
        3 => matrix.ncols += 1,
        _ => {}
    }
    // At the limit it could be a right side, and then a slow one.
    for side in [&mut matrix.nrows, &mut matrix.ncols] {
        if *side == SIDE_LIMIT {
            *side += 1;
        }
    }
    matrix
}

/// Rows in one of the orders in which callers store them, or a graph of few
/// entries, so that more hops reach more nodes.
fn right_matrix(rng: &mut Rng, side: usize) -> Matrix {
    let mut entries = match rng.below(4) {
        0 => chain(side, rng.once_in(2)),
        1 => any_way(rng, side, side),
        2 => one_way(rng, side, side),
        _ => {
            let order = rng.pick(&ORDERS);
            let densest = if rng.once_in(30) { 40 } else { rng.below(5) };
            return ordered(rng, order, side, side, densest);
        }
    };
    rng.shuffle(&mut entries);
    of_entries(side, &entries)
}

fn random_owners(rng: &mut Rng, matrix: &Matrix, layout: &Layout) -> Call {
    let ranks = rng.pick(&[0, 1, 2, 3, 4, 4, 4, 8, u32::MAX]);
    let mut list = vec![];
    for &size in &layout.blocks.components {
        let owner = rng.below(4) as u32;
        list.resize(list.len() + size.min(300) as usize, owner);
    }
    if rng.once_in(4) && !list.is_empty() {
        let node = rng.below(list.len());
        list[node] = rng.pick(&[0, 1, ranks, u32::MAX]);
    }
    match rng.below(20) {
        0 => drop(list.pop()),
        1 => list.push(0),
        _ => {}
    }
    let blocks = layout.blocks.kinds.len();
    let room = rng.pick(&[blocks, blocks, blocks, blocks + 2, blocks.saturating_sub(1)]);
    owners(matrix, layout, &list, ranks, room)
}
