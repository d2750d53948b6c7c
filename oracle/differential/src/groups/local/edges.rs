//! Cases at the edges, small enough to be recorded.

use super::cases::{
    gather_of, gathering, of_entries, pattern, pattern_in, plan, plan_in, square, topology_of,
};
use super::plans::{damaged_pointers, right_ones};
use super::{Call, Gather, rooms};
use crate::groups::csr32::{Matrix, NOT_FINITE};
use crate::groups::growth::{chain, mask_of, wrong_masks};
use crate::groups::mask::full;
use crate::groups::topology::{Pair, faults, near, of_pairs};

pub fn run(offer: &mut dyn FnMut(Call)) {
    right(offer);
    faulty_topologies(offer);
    faulty_matrices(offer);
    strangers(offer);
    gathers(offer);
}

fn matrices() -> Vec<Matrix> {
    vec![
        of_entries(5, &chain(5, false)),
        of_entries(6, &chain(6, true)),
        square(&[vec![0, 0], vec![1], vec![2, 0]]),
        square(&[vec![3, 1, 1, 0], vec![], vec![2, 2], vec![3]]),
        square(&[vec![2, 1, 0], vec![0, 2], vec![1, 1, 1]]),
        square(&vec![vec![0]; 12]),
        of_entries(4, &[]),
        of_entries(0, &[]),
    ]
}

/// First with lists of just the needed lengths, then each with one that is
/// longer, then with all others.
fn right(offer: &mut dyn FnMut(Call)) {
    let mut all = vec![];
    for matrix in matrices() {
        let topology = topology_of(&matrix);
        let side = matrix.nrows;
        let last = side.saturating_sub(1);
        for members in [vec![0, 1, 2], vec![0, last], vec![last], vec![]] {
            let members: Vec<usize> = members.into_iter().filter(|&node| node < side).collect();
            all.push((topology.clone(), matrix.clone(), mask_of(side, &members)));
        }
        all.push((topology, matrix, full(side)));
    }
    for (turn, (topology, matrix, region)) in all.iter().enumerate() {
        offer(pattern(topology, region));
        offer(plan(topology, matrix, region));
        offer(gather_of(topology, matrix, region));
        let mut longer = rooms::of_plan(topology, matrix, region);
        longer[turn % 5] += 2;
        offer(plan_in(topology, matrix, region, &longer));
        longer[turn % 3] += 1;
        offer(pattern_in(topology, region, &longer));
    }
    for (topology, matrix, region) in &all {
        let needed = rooms::of_plan(topology, matrix, region);
        for lengths in near(&needed[..3]) {
            offer(pattern_in(topology, region, &lengths));
        }
        for lengths in near(&needed) {
            offer(plan_in(topology, matrix, region, &lengths));
        }
    }
}

fn faulty_topologies(offer: &mut dyn FnMut(Call)) {
    let matrix = of_entries(3, &[(0, 1), (1, 2)]);
    let right = topology_of(&matrix);
    let region = mask_of(3, &[0, 1]);
    let mut topologies = faults::disagreeing(&right);
    for side in faults::broken(&right.rows) {
        let mut wrong = right.clone();
        wrong.rows = side.clone();
        topologies.push(wrong.clone());
        wrong.columns = side;
        wrong.rows = right.rows.clone();
        topologies.push(wrong);
    }
    topologies.push(of_pairs(2, 3, &[(0, 1)]));
    topologies.push(of_pairs(3, 2, &[(0, 1)]));
    topologies.push(of_pairs(4, 4, &[(0, 1)]));
    for topology in topologies {
        offer(pattern(&topology, &region));
        offer(plan(&topology, &matrix, &region));
        let sides = Matrix {
            nrows: topology.rows.nrows,
            ncols: topology.rows.ncols,
            row_ptr: vec![0; topology.rows.nrows.min(15) + 1],
            col_idx: vec![],
            values: vec![],
        };
        offer(plan(&topology, &sides, &region));
    }
    for region in wrong_masks(3) {
        offer(pattern(&right, &region));
        offer(plan(&right, &matrix, &region));
    }
}

/// Each of 1 to 8 planted in a right matrix.
fn faulty_matrices(offer: &mut dyn FnMut(Call)) {
    let right = square(&[vec![2, 1, 0], vec![0, 2], vec![1, 1]]);
    let topology = topology_of(&right);
    let mut with = |change: &dyn Fn(&mut Matrix)| {
        let mut matrix = right.clone();
        change(&mut matrix);
        offer(plan(&topology, &matrix, &full(3)));
    };
    for far in [(1 << 20) + 1, usize::MAX] {
        with(&|matrix| matrix.nrows = far);
        with(&|matrix| matrix.ncols = far);
    }
    for length in [0, 1, 3, 5] {
        with(&|matrix| matrix.row_ptr.resize(length, 7));
    }
    for length in [0, 6, 8] {
        with(&|matrix| matrix.values.resize(length, 0.5));
        with(&|matrix| matrix.col_idx.resize(length, 0));
    }
    for pointer in [1, 3, u32::MAX] {
        with(&|matrix| matrix.row_ptr[0] = pointer);
        with(&|matrix| matrix.row_ptr[3] = pointer);
    }
    with(&|matrix| matrix.row_ptr[1] = 6);
    with(&|matrix| matrix.row_ptr[2] = 8);
    with(&|matrix| matrix.row_ptr[2] = 2);
    for place in [0, 3, 6] {
        with(&|matrix| matrix.col_idx[place] = 3);
        with(&|matrix| matrix.col_idx[place] = u32::MAX);
        for bits in NOT_FINITE {
            with(&|matrix| matrix.values[place] = f64::from_bits(bits));
        }
    }
}

/// Plans on the topology of another matrix: in the first row or a later one, in
/// one row or in two, in the region or outside of it alone.
fn strangers(offer: &mut dyn FnMut(Call)) {
    let cases: [(&[Pair], &[Pair]); 10] = [
        (&[(0, 0), (0, 1)], &[(0, 0), (0, 0)]),
        (&[(0, 1), (1, 1)], &[(0, 1), (1, 1), (1, 0)]),
        (&[(0, 1), (2, 0), (2, 2)], &[(0, 1), (2, 2), (2, 1)]),
        (&[(0, 0), (1, 1)], &[(0, 1), (0, 0)]),
        (&[(0, 0), (1, 1)], &[(1, 2), (1, 1)]),
        (&[(0, 3), (1, 1)], &[(1, 1), (2, 3)]),
        (&[(1, 0)], &[(1, 2), (1, 0), (1, 2)]),
        (&[(1, 2), (2, 1)], &[(2, 1)]),
        (&[], &[(2, 2), (2, 2)]),
        (&[(2, 0), (2, 1), (2, 2)], &[(2, 2), (2, 0)]),
    ];
    for (pairs, entries) in cases {
        let topology = of_pairs(4, 4, pairs);
        for region in [mask_of(4, &[0, 1, 2]), mask_of(4, &[0, 2]), full(4)] {
            offer(plan(&topology, &of_entries(4, entries), &region));
        }
    }
    for matrix in matrices() {
        for other in matrices() {
            let topology = topology_of(&other);
            offer(plan(&topology, &matrix, &full(matrix.nrows)));
        }
    }
}

fn gathers(offer: &mut dyn FnMut(Call)) {
    special(offer);
    for right in right_ones() {
        let pairs = right.pairs();
        for room in [pairs, pairs + 2, pairs.saturating_sub(1), 0] {
            let out = rooms::values_lent(room);
            offer(Call::Gather(Gather {
                out,
                ..right.clone()
            }));
        }
        for source_ptr in damaged_pointers(&right.source_ptr) {
            offer(Call::Gather(Gather {
                source_ptr,
                ..right.clone()
            }));
        }
        for source in [right.source_value_len as u32, u32::MAX] {
            let mut wrong = right.clone();
            if let Some(last) = wrong.source_indices.last_mut() {
                *last = source;
                offer(Call::Gather(wrong));
            }
        }
        for source_value_len in [0, right.source_value_len + 1, usize::MAX] {
            offer(Call::Gather(Gather {
                source_value_len,
                ..right.clone()
            }));
        }
        for bits in NOT_FINITE {
            let mut wrong = right.clone();
            if let Some(last) = wrong.values.last_mut() {
                *last = f64::from_bits(bits);
                offer(Call::Gather(wrong));
            }
        }
    }
}

/// -0.0 alone and beside others, sums that round and that reach infinity,
/// pairs without a source.
fn special(offer: &mut dyn FnMut(Call)) {
    let tiny = f64::from_bits(1);
    let values = [-0.0, 1.5, 0.1, f64::MAX, -f64::MAX, tiny, -tiny, 1e16];
    let cases: [(&[u32], &[u32]); 10] = [
        (&[0, 1, 2, 3, 4, 5, 6, 7, 8], &[7, 6, 5, 4, 3, 2, 1, 0]),
        (&[0, 1, 3], &[0, 0, 0]),
        (&[0, 2, 5], &[3, 3, 3, 3, 4]),
        (&[0, 3, 6], &[7, 2, 2, 2, 2, 7]),
        (&[0, 0, 2, 2], &[5, 6]),
        (&[0, 2, 2], &[0, 1]),
        (&[0, 1], &[0]),
        (&[0, 2], &[5, 5]),
        (&[0, 3], &[4, 3, 3]),
        (&[0, 0], &[]),
    ];
    for (source_ptr, source_indices) in cases {
        let right = gathering(source_ptr, source_indices, &values);
        offer(Call::Gather(right.clone()));
        offer(Call::Gather(Gather {
            out: rooms::values_lent(right.pairs() + 3),
            ..right
        }));
    }
}
