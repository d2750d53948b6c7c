//! Rows of many words, and many entries.

use super::cases::{matrix, pairs, side, topology};
use super::matrices::{ORDERS, ordered, row};
use super::{Call, OPERATIONS, faults, questions};
use crate::rng::Rng;

/// So many words in a row at most.
const WORDS: usize = 40;

pub fn run(run: &mut dyn FnMut(Call)) {
    let mut rng = Rng::new(7);
    word_orders(&mut rng, run);
    long_rows(&mut rng, run);
    many_entries(&mut rng, run);
    not_transposed(&mut rng, run);
    operations(&mut rng, run);
}

/// Every order of 5 words, and one entry in each of up to 40 words in rising,
/// falling and random order.
fn word_orders(rng: &mut Rng, run: &mut dyn FnMut(Call)) {
    for number in 0..5_usize.pow(5) {
        let columns = (0..5).map(|at| 64 * (number / 5_usize.pow(at) % 5) as u32 + at);
        questions::of_matrix(&matrix(320, &[vec![], columns.collect(), vec![319]]), run);
    }
    for words in 1..=WORDS {
        let mut columns: Vec<u32> = (0..words as u32).map(|word| 64 * word + word).collect();
        questions::of_matrix(&matrix(64 * WORDS, &[columns.clone()]), run);
        columns.reverse();
        questions::of_matrix(
            &matrix(64 * WORDS, &[columns.clone(), columns.clone()]),
            run,
        );
        rng.shuffle(&mut columns);
        questions::of_matrix(&matrix(64 * WORDS, &[vec![0], columns.clone()]), run);
        columns.extend_from_within(..words / 2);
        rng.shuffle(&mut columns);
        questions::of_matrix(&matrix(64 * WORDS, &[columns.clone(), vec![2]]), run);
    }
}

/// A few rows of up to 100 entries in up to 40 words, in every order, and the
/// same turned round: columns of many words.
fn long_rows(rng: &mut Rng, run: &mut dyn FnMut(Call)) {
    for order in ORDERS {
        for ncols in [640, 641, 64 * WORDS - 1, 64 * WORDS] {
            let long = ordered(rng, order, 4, ncols, 100);
            questions::of_matrix(&long, run);
            let topology = topology(4, ncols, &pairs(&long));
            questions::of_topology(&topology, run);
            questions::of_some_rows(rng, &topology, run);
            let mut rows = vec![vec![]; ncols];
            for (row, column) in pairs(&long) {
                rows[column].push(row as u32);
            }
            questions::of_matrix(&matrix(4, &rows), run);
        }
    }
}

/// Some thousand entries.
fn many_entries(rng: &mut Rng, run: &mut dyn FnMut(Call)) {
    for order in ORDERS {
        for (nrows, ncols) in [(300, 300), (1_000, 65), (65, 1_000)] {
            let matrix = ordered(rng, order, nrows, ncols, 30);
            questions::of_matrix(&matrix, run);
            questions::of_topology(&topology(nrows, ncols, &pairs(&matrix)), run);
        }
    }
    // One row of thousands of entries in thousands of words.
    for order in ORDERS {
        let columns = row(rng, order, 200_000, 6_000);
        questions::of_matrix(&matrix(200_000, &[vec![7], columns]), run);
    }
}

/// One pair of many at another place in one of the sides: an early one, one in
/// the middle, the last.
fn not_transposed(rng: &mut Rng, run: &mut dyn FnMut(Call)) {
    for (nrows, ncols, densest) in [
        (3, 64 * WORDS, 100),
        (64 * WORDS, 3, 2),
        (129, 129, 8),
        (300, 300, 12),
        (1, 5_000, 90),
        (5_000, 1, 1),
    ] {
        let matrix = ordered(rng, ORDERS[2], nrows, ncols, densest);
        let right = topology(nrows, ncols, &pairs(&matrix));
        let pairs = faults::pairs(&right.rows);
        for place in [0, pairs.len() / 2, pairs.len().saturating_sub(1)] {
            if place < pairs.len() {
                for topology in faults::with_pair_moved(&right, &pairs, place) {
                    run(Call::Validate(topology.clone()));
                    questions::one_of_topology(&topology, 1 + rng.below(13), run);
                }
            }
        }
    }
}

fn operations(rng: &mut Rng, run: &mut dyn FnMut(Call)) {
    for _ in 0..30 {
        let [a, b] = [0, 1].map(|_| {
            let order = rng.pick(&ORDERS);
            let densest = rng.pick(&[3, 40, 200]);
            let matrix = ordered(rng, order, 5, 64 * WORDS, densest);
            side(5, 64 * WORDS, &pairs(&matrix))
        });
        for operation in OPERATIONS {
            questions::combine_in_rooms(operation, &a, &b, run);
        }
    }
}
