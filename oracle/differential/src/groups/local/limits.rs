//! At the limits and past them. Few, as they are large.

use super::cases::{
    all_three, gather, of_entries, pattern, pattern_in, plan, plan_in, square, topology_of,
};
use super::{Call, Gather, rooms};
use crate::expected::{ENTRY_LIMIT, SIDE_LIMIT};
use crate::groups::csr32::Matrix;
use crate::groups::growth::mask_of;
use crate::groups::mask::{Mask, full};
use crate::groups::topology::{Topology, of_pairs};

pub fn run(run: &mut dyn FnMut(Call)) {
    largest(run);
    past(run);
    words(run);
    far_masks(run);
    entries(run);
    most_sources(run);
    past_in_gather(run);
    many_pointers(run);
}

/// The largest side, with entries at both ends, and in the middle over a
/// border; few members, and all of them.
fn largest(run: &mut dyn FnMut(Call)) {
    let last = SIDE_LIMIT - 1;
    let middle = 1 << 19;
    let entries = [
        (0, last),
        (0, 0),
        (last, last - 64),
        (last, last),
        (last, 3),
        (middle, 0),
        (7, middle),
    ];
    let matrix = of_entries(SIDE_LIMIT, &entries);
    for region in [
        mask_of(SIDE_LIMIT, &[0, 7, middle, last]),
        mask_of(SIDE_LIMIT, &[last]),
        full(SIDE_LIMIT),
    ] {
        all_three(&matrix, &region, run);
    }
    let topology = topology_of(&matrix);
    let region = full(SIDE_LIMIT);
    let needed = rooms::of_plan(&topology, &matrix, &region);
    for place in 0..2 {
        let mut lengths = needed;
        lengths[place] -= 1;
        run(plan_in(&topology, &matrix, &region, &lengths));
        run(pattern_in(&topology, &region, &lengths[..3]));
    }
}

/// One more, in rows and columns, or in one of them.
fn past(run: &mut dyn FnMut(Call)) {
    let over = SIDE_LIMIT + 1;
    let none = of_entries(1, &[]);
    let wide = of_pairs(over, over, &[]);
    run(pattern(&wide, &mask_of(over, &[])));
    run(plan(&wide, &none, &mask_of(over, &[])));
    run(pattern(&of_pairs(1, over, &[]), &mask_of(1, &[])));
    for far in [over, 1 << 32, usize::MAX] {
        for columns in [false, true] {
            let mut wrong: Topology = of_pairs(1, 1, &[(0, 0)]);
            let side = match columns {
                true => &mut wrong.columns,
                false => &mut wrong.rows,
            };
            side.nrows = far;
            run(pattern(&wrong, &mask_of(1, &[0])));
            run(plan(&wrong, &none, &mask_of(1, &[0])));
        }
        for (nrows, ncols) in [(far, 1), (1, far), (far, far)] {
            let matrix = Matrix {
                nrows,
                ncols,
                ..none.clone()
            };
            run(plan(&of_pairs(1, 1, &[]), &matrix, &mask_of(1, &[0])));
        }
    }
}

/// One word more than there may be in one of the lists, which is no right side
/// either.
fn words(run: &mut dyn FnMut(Call)) {
    let matrix = of_entries(1, &[(0, 0)]);
    let right = topology_of(&matrix);
    let region = mask_of(1, &[0]);
    for columns in [false, true] {
        let mut masks = right.clone();
        let mut indices = right.clone();
        let [side, other] = [&mut masks, &mut indices].map(|topology| match columns {
            true => &mut topology.columns,
            false => &mut topology.rows,
        });
        side.masks.resize(ENTRY_LIMIT + 1, 0);
        other.word_indices.resize(ENTRY_LIMIT + 1, 0);
        run(pattern(&masks, &region));
        run(plan(&indices, &matrix, &region));
    }
}

/// A mask's length over the limit is of the wrong length, not over a limit.
fn far_masks(run: &mut dyn FnMut(Call)) {
    let matrix = of_entries(1, &[]);
    let topology = topology_of(&matrix);
    for len in [
        SIDE_LIMIT,
        SIDE_LIMIT + 1,
        1 << 32,
        usize::MAX - 1,
        usize::MAX,
    ] {
        let region = Mask {
            len,
            words: vec![0],
        };
        run(pattern(&topology, &region));
        run(plan(&topology, &matrix, &region));
    }
}

/// As many entries as there may be, of one pair and of two; one more in either
/// list.
fn entries(run: &mut dyn FnMut(Call)) {
    let region = mask_of(2, &[0, 1]);
    let pairs = of_pairs(2, 2, &[(0, 0), (0, 1)]);
    let mut columns = vec![1; ENTRY_LIMIT];
    columns[0] = 0;
    let most = square(&[columns, vec![]]);
    run(plan(&pairs, &most, &region));
    for (more_columns, more_values) in [(1, 0), (0, 1)] {
        let mut over = most.clone();
        over.col_idx.resize(ENTRY_LIMIT + more_columns, 0);
        over.values.resize(ENTRY_LIMIT + more_values, 1.0);
        run(plan(&pairs, &over, &region));
    }
}

/// As many sources and values as there may be, in one pair and in pairs of one.
fn most_sources(run: &mut dyn FnMut(Call)) {
    let most = ENTRY_LIMIT as u32;
    let sources: Vec<u32> = (0..most).rev().collect();
    let mut values = vec![0.1; ENTRY_LIMIT];
    values[5] = -0.0;
    run(gather(&[0, 1, most], &sources, &values));
    let pointers: Vec<u32> = (0..=most).collect();
    run(gather(&pointers, &sources, &values));
    values[ENTRY_LIMIT - 1] = f64::NAN;
    run(gather(&[0, 1], &[0], &values));
}

/// A source or a value more: 1, whatever else is wrong.
fn past_in_gather(run: &mut dyn FnMut(Call)) {
    let over = ENTRY_LIMIT + 1;
    for (last, out) in [(over as u32, 1), (3, 0)] {
        run(Call::Gather(Gather {
            source_ptr: vec![0, last],
            source_indices: vec![0; over],
            source_value_len: 1,
            values: vec![1.0],
            out: vec![2.0; out],
        }));
    }
    for (source_ptr, source_value_len) in [(vec![0, 1], over), (vec![], 1)] {
        run(Call::Gather(Gather {
            source_ptr,
            source_indices: vec![0],
            source_value_len,
            values: vec![f64::NAN; over],
            out: vec![2.0],
        }));
    }
}

/// More pointers than there may be sources: 01 sets them no limit.
fn many_pointers(run: &mut dyn FnMut(Call)) {
    let mut pointers = vec![0; ENTRY_LIMIT + 20];
    pointers[ENTRY_LIMIT + 19] = 1;
    run(gather(&pointers, &[0], &[-0.0]));
}
