//! Random cases.

use super::cases::{spread, topology_of};
use super::plans::damaged_pointers;
use super::{Call, Gather, PatternLent, PlanLent, expected, rooms, runs};
use crate::groups::csr32::{FINITE, Matrix, NOT_FINITE, damage, finite};
use crate::groups::growth::{random_seeds, random_side, random_topology};
use crate::groups::topology::{ORDERS, Topology, break_side, of_pairs, ordered, pairs};
use crate::rng::Rng;

/// One call at random; a third or so have a fault.
pub fn random(rng: &mut Rng) -> Call {
    match rng.below(40) {
        0 => Call::Run(Box::new(runs::random(rng))),
        1..12 => pattern(rng),
        12..28 => random_plan(rng),
        _ => gather(rng),
    }
}

fn pattern(rng: &mut Rng) -> Call {
    let side = random_side(rng);
    let topology = random_topology(rng, side);
    let region = random_seeds(rng, side);
    let needed = rooms::of_pattern(&topology, &region);
    Call::Pattern {
        lent: PatternLent::of(rooms::random(rng, needed)),
        topology,
        region,
    }
}

fn right_matrix(rng: &mut Rng, side: usize) -> Matrix {
    let order = rng.pick(&ORDERS);
    let densest = if rng.once_in(30) { 40 } else { rng.below(5) };
    let mut matrix = ordered(rng, order, side, side, densest);
    for value in &mut matrix.values {
        *value = finite(rng);
    }
    matrix
}

/// Mostly the matrix's own topology; else one of a few other pairs, or with a
/// fault.
fn topology_for(rng: &mut Rng, matrix: &Matrix) -> Topology {
    let side = matrix.nrows;
    let mut topology = topology_of(matrix);
    match rng.below(24) {
        _ if side == 0 => {}
        0..4 => return strange(rng, matrix),
        4 => return random_topology(rng, side),
        5 => break_side(rng, &mut topology.rows),
        6 => break_side(rng, &mut topology.columns),
        7 => return of_pairs(side, side + rng.below(3), &[]),
        _ => {}
    }
    topology
}

fn strange(rng: &mut Rng, matrix: &Matrix) -> Topology {
    let side = matrix.nrows;
    let mut pairs = pairs(matrix);
    for _ in 0..1 + rng.below(2) {
        if rng.once_in(2) && !pairs.is_empty() {
            let gone = pairs[rng.below(pairs.len())];
            pairs.retain(|&pair| pair != gone);
        } else {
            pairs.push((rng.below(side), rng.below(side)));
        }
    }
    of_pairs(side, side, &pairs)
}

fn random_plan(rng: &mut Rng) -> Call {
    let side = random_side(rng);
    let mut matrix = right_matrix(rng, side);
    let topology = topology_for(rng, &matrix);
    let region = random_seeds(rng, side);
    if rng.once_in(8) {
        damage(rng, &mut matrix);
    }
    let needed = rooms::of_plan(&topology, &matrix, &region);
    Call::Plan {
        lent: PlanLent::of(rooms::random(rng, needed)),
        topology,
        matrix,
        region,
    }
}

/// By a plan of the Rust's, or one made up.
fn gather(rng: &mut Rng) -> Call {
    let mut gather = if rng.once_in(3) {
        planned(rng)
    } else {
        made_up(rng)
    };
    match rng.below(20) {
        0 => {
            let mut all = damaged_pointers(&gather.source_ptr);
            gather.source_ptr = all.swap_remove(rng.below(all.len()));
        }
        1 if !gather.source_indices.is_empty() => {
            let place = rng.below(gather.source_indices.len());
            let past = gather.source_value_len as u32;
            gather.source_indices[place] = rng.pick(&[past, past + 1, u32::MAX]);
        }
        2 => gather.source_indices.push(rng.below(3) as u32),
        3 => gather.values.push(finite(rng)),
        4 => drop(gather.values.pop()),
        5 => gather.source_value_len = rng.pick(&[0, 1, 1 << 24, usize::MAX]),
        6 if !gather.values.is_empty() => {
            let place = rng.below(gather.values.len());
            gather.values[place] = f64::from_bits(rng.pick(&NOT_FINITE));
        }
        _ => {}
    }
    let room = match rng.below(12) {
        0 => rng.below(gather.pairs() + 1),
        1..4 => gather.pairs() + 1 + rng.below(3),
        _ => gather.pairs(),
    };
    gather.out = (0..room).map(|_| finite(rng)).collect();
    Call::Gather(gather)
}

fn planned(rng: &mut Rng) -> Gather {
    let side = random_side(rng).min(60);
    let matrix = right_matrix(rng, side);
    let region = random_seeds(rng, side);
    match expected::prepared(&topology_of(&matrix), &matrix, &region) {
        Ok(plan) => Gather {
            source_ptr: plan.source_ptr,
            source_indices: plan.source_indices,
            source_value_len: plan.source_value_len,
            values: matrix.values,
            out: vec![],
        },
        Err(_) => made_up(rng),
    }
}

/// Pairs of one source each, or of some.
fn made_up(rng: &mut Rng) -> Gather {
    let [most_values, most_pairs] = if rng.once_in(20) { [200, 100] } else { [8, 12] };
    let count = 1 + rng.below(most_values);
    let pairs = rng.below(most_pairs);
    let direct = rng.once_in(3);
    let mut source_ptr = vec![0];
    for pair in 0..pairs as u32 {
        let more = if direct { 1 } else { rng.below(4) as u32 };
        source_ptr.push(source_ptr[pair as usize] + more);
    }
    let sources = source_ptr[pairs];
    Gather {
        source_ptr,
        source_indices: (0..sources).map(|_| rng.below(count) as u32).collect(),
        source_value_len: count,
        values: (0..count).map(|place| some_value(rng, place)).collect(),
        out: vec![],
    }
}

fn some_value(rng: &mut Rng, place: usize) -> f64 {
    match rng.below(4) {
        0 => f64::from_bits(rng.pick(&FINITE)),
        1 => spread(place),
        2 => -0.0,
        _ => finite(rng),
    }
}
