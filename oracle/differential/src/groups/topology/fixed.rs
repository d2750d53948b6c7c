//! Topologies at the edges: word borders, orders, faults.

use super::cases::{BORDERS, Pair, pairs, side, topology};
use super::matrices::{ORDERS, ordered};
use super::{Call, OPERATIONS, Side, Topology, faults, questions, rooms};
use crate::expected::{ENTRY_LIMIT, SIDE_LIMIT};
use crate::groups::csr32::{Matrix, damage};
use crate::rng::Rng;

pub fn run(run: &mut dyn FnMut(Call)) {
    let mut rng = Rng::new(6);
    borders(&mut rng, run);
    every_row(&mut rng, run);
    empty(run);
    faulty_matrices(&mut rng, run);
    faulty_sides(run);
    faulty_topologies(run);
    two_faults(run);
    operations(&mut rng, run);
    sizes_differ(run);
}

/// Sides at the borders of words, columns in every order.
fn borders(rng: &mut Rng, run: &mut dyn FnMut(Call)) {
    for nrows in BORDERS {
        for ncols in BORDERS {
            for order in ORDERS {
                let densest = rng.pick(&[1, 3, 8]);
                let matrix = ordered(rng, order, nrows, ncols, densest);
                questions::of_matrix(&matrix, run);
                let topology = topology(nrows, ncols, &pairs(&matrix));
                questions::of_topology(&topology, run);
                questions::one_of_side(&topology.rows, &topology.rows, rng.below(16), run);
            }
            let order = rng.pick(&ORDERS);
            let matrix = ordered(rng, order, nrows, ncols, 4);
            questions::of_matrix_in_rooms(&matrix, run);
            questions::of_some_rows(rng, &topology(nrows, ncols, &pairs(&matrix)), run);
        }
    }
}

/// Every row and column of topologies with few rows and two or three words.
fn every_row(rng: &mut Rng, run: &mut dyn FnMut(Call)) {
    for ncols in [65, 129, 130] {
        for order in [ORDERS[0], ORDERS[2]] {
            let matrix = ordered(rng, order, 4, ncols, 12);
            questions::of_all_rows(&topology(4, ncols, &pairs(&matrix)), run);
        }
    }
    let full: Vec<Pair> = (0..2 * 66).map(|pair| (pair / 66, pair % 66)).collect();
    questions::of_all_rows(&topology(2, 66, &full), run);
}

/// No rows, no columns, neither; rows and columns without entries.
fn empty(run: &mut dyn FnMut(Call)) {
    for nrows in [0, 1, 2, 64, 65, 1_000] {
        for ncols in [0, 1, 2, 64, 65, 1_000] {
            let matrix = Matrix {
                nrows,
                ncols,
                row_ptr: vec![0; nrows + 1],
                col_idx: vec![],
                values: vec![],
            };
            questions::of_matrix_in_rooms(&matrix, run);
            let topology = topology(nrows, ncols, &[]);
            questions::of_side(&topology.rows, &topology.rows, run);
            questions::of_topology(&topology, run);
        }
    }
    for nrows in 0..=2 {
        for ncols in 0..=2 {
            questions::of_all_rows(&topology(nrows, ncols, &[]), run);
        }
    }
}

/// Right matrices with one to three faults, with lists long enough or not.
fn faulty_matrices(rng: &mut Rng, run: &mut dyn FnMut(Call)) {
    for _ in 0..3_000 {
        let order = rng.pick(&ORDERS);
        let (nrows, ncols) = (rng.below(6), rng.pick(&[1, 3, 64, 130]));
        let mut matrix = ordered(rng, order, nrows, ncols, 4);
        for _ in 0..1 + rng.below(3) {
            damage(rng, &mut matrix);
        }
        // At the limit it is a right side, which `limits` takes.
        if matrix.nrows == SIDE_LIMIT || matrix.ncols == SIDE_LIMIT {
            continue;
        }
        questions::of_matrix(&matrix, run);
        let nothing = rooms::lent(&[0; 3]);
        run(Call::SideFromCsr32(matrix.clone(), nothing));
        run(Call::FromCsr32(matrix, rooms::both_lent(&[0; 8])));
    }
}

/// Two words in some rows, one in others, none in the third, and columns that
/// end inside of a word.
fn several_words() -> Topology {
    topology(
        5,
        130,
        &[
            (0, 0),
            (0, 63),
            (0, 64),
            (1, 5),
            (1, 6),
            (1, 70),
            (1, 129),
            (3, 64),
            (3, 127),
            (4, 0),
            (4, 128),
        ],
    )
}

/// The topologies that faults are planted in.
fn right_ones() -> Vec<Topology> {
    let tall = several_words();
    let wide = Topology {
        rows: tall.columns.clone(),
        columns: tall.rows.clone(),
    };
    vec![
        topology(1, 1, &[(0, 0)]),
        topology(1, 2, &[(0, 0)]),
        topology(3, 3, &[(0, 1), (1, 2)]),
        topology(2, 64, &[(0, 0), (1, 63)]),
        topology(70, 3, &[(0, 0), (5, 0), (64, 0), (69, 0), (69, 2)]),
        topology(66, 66, &[(0, 0), (0, 65), (65, 0), (64, 64), (1, 64)]),
        tall,
        wide,
    ]
}

/// Every fault of `validate` in a side, in every call on one.
fn faulty_sides(run: &mut dyn FnMut(Call)) {
    for right in right_ones() {
        let wrong = faults::broken(&right.rows);
        if right.rows.masks.len() > 5 {
            faults::demand_all(&wrong);
        }
        for side in wrong {
            questions::of_side(&side, &right.rows, run);
            let nothing = rooms::lent(&[0; 3]);
            let operation = OPERATIONS[side.masks.len() % 4];
            run(Call::Combine(operation, side, right.rows.clone(), nothing));
        }
    }
}

/// The same in the rows and in the columns, in every call on a topology; and
/// sides that are right, but not of one topology.
fn faulty_topologies(run: &mut dyn FnMut(Call)) {
    for right in right_ones() {
        for rows in faults::broken(&right.rows) {
            let columns = right.columns.clone();
            questions::of_topology(&Topology { rows, columns }, run);
        }
        for columns in faults::broken(&right.columns) {
            let rows = right.rows.clone();
            questions::of_topology(&Topology { rows, columns }, run);
        }
        let others = [faults::disagreeing(&right), faults::hidden(&right)];
        for topology in others.concat() {
            questions::of_topology(&topology, run);
        }
    }
}

/// A limit passed and another fault, in one side or in each of two.
fn two_faults(run: &mut dyn FnMut(Call)) {
    let right = several_words();
    for columns in [false, true] {
        let one = right.side(columns);
        let other = right.side(!columns);
        for wrong in over_limit(one) {
            for again in faults::broken(&wrong).iter().step_by(3) {
                run(Call::SideValidate(again.clone()));
            }
            for second in faults::broken(other).iter().step_by(7) {
                let (rows, columns) = if columns {
                    (second.clone(), wrong.clone())
                } else {
                    (wrong.clone(), second.clone())
                };
                run(Call::Validate(Topology { rows, columns }));
            }
            // Of two sides the first is checked whole before the second.
            for second in faults::broken(one).iter().step_by(11) {
                questions::combine(OPERATIONS[1], &wrong, second, run);
                questions::combine(OPERATIONS[1], second, &wrong, run);
            }
        }
    }
}

fn over_limit(right: &Side) -> Vec<Side> {
    let mut all = vec![right.clone(); 4];
    all[0].nrows = SIDE_LIMIT + 1;
    all[1].ncols = SIDE_LIMIT + 1;
    all[2].structural_nnz = ENTRY_LIMIT + 1;
    all[3].nrows = usize::MAX;
    all
}

/// Set operations on sides that are equal, empty, apart, one in the other, and
/// at random.
fn operations(rng: &mut Rng, run: &mut dyn FnMut(Call)) {
    for nrows in [0, 1, 2, 5, 65] {
        for ncols in [1, 63, 64, 65, 128, 129, 200] {
            let a = random_side(rng, nrows, ncols);
            let b = random_side(rng, nrows, ncols);
            let none = side(nrows, ncols, &[]);
            let all = faults::pairs(&a);
            let half = side(nrows, ncols, &all[..all.len() / 2]);
            let rest = side(nrows, ncols, &all[all.len() / 2..]);
            for (a, b) in [
                (&a, &b),
                (&b, &a),
                (&a, &a),
                (&a, &none),
                (&none, &a),
                (&none, &none),
                (&half, &rest),
                (&rest, &half),
                (&a, &half),
                (&half, &a),
            ] {
                for operation in OPERATIONS {
                    questions::combine_in_rooms(operation, a, b, run);
                }
            }
        }
    }
}

fn random_side(rng: &mut Rng, nrows: usize, ncols: usize) -> Side {
    let order = rng.pick(&ORDERS);
    let matrix = ordered(rng, order, nrows, ncols, 6);
    side(nrows, ncols, &pairs(&matrix))
}

/// Rows, columns or both differ by one, or are exchanged.
fn sizes_differ(run: &mut dyn FnMut(Call)) {
    let right = several_words();
    let a = &right.rows;
    for (nrows, ncols) in [(5, 131), (6, 130), (6, 131), (5, 129), (4, 130), (130, 5)] {
        let own: Vec<Pair> = faults::pairs(a)
            .into_iter()
            .filter(|pair| pair.0 < nrows && pair.1 < ncols)
            .collect();
        let b = side(nrows, ncols, &own);
        for operation in OPERATIONS {
            questions::combine_in_rooms(operation, a, &b, run);
            questions::combine_in_rooms(operation, &b, a, run);
        }
    }
}
