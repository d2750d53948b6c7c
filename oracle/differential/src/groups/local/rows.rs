//! Rows of many words and of many entries, in the orders in which callers store
//! them.

use super::Call;
use super::cases::{all_three, square, valued};
use crate::groups::csr32::Matrix;
use crate::groups::growth::mask_of;
use crate::groups::mask::{Mask, full, random_right};
use crate::groups::topology::{ORDERS, Order, ordered, ordered_row};
use crate::rng::Rng;

/// So many words in a row at most, but for the longest.
const WORDS: usize = 40;

pub fn run(run: &mut dyn FnMut(Call)) {
    let mut rng = Rng::new(22);
    word_orders(run);
    one_turn(run);
    many_words(&mut rng, run);
    long_rows(&mut rng, run);
    many_entries(&mut rng, run);
    longest(&mut rng, run);
}

/// A square matrix with some rows, the others empty.
fn with_rows(side: usize, rows: &[(usize, Vec<u32>)]) -> Matrix {
    let mut all = vec![vec![]; side];
    for (row, columns) in rows {
        all[*row].clone_from(columns);
    }
    square(&all)
}

/// Every order of 5 words, some of them met again, with the whole region and
/// with one that drops every other column.
fn word_orders(run: &mut dyn FnMut(Call)) {
    let even: Vec<usize> = (0..320).step_by(2).collect();
    let [whole, half] = [full(320), mask_of(320, &even)];
    for number in 0..5_usize.pow(5) {
        let columns = (0..5).map(|at| 64 * (number / 5_usize.pow(at) % 5) as u32 + at);
        let matrix = with_rows(320, &[(64, columns.collect()), (318, vec![319, 2])]);
        let region = if number % 2 == 0 { &whole } else { &half };
        all_three(&matrix, region, run);
    }
}

/// Rising rows with one entry out of its place: the first, the last, one in the
/// middle, exchanged with its neighbour, or stored once more.
fn one_turn(run: &mut dyn FnMut(Call)) {
    for step in [1, 7, 64] {
        let rising: Vec<u32> = (0..9).map(|at| 3 + step * at).collect();
        let side = 3 + step as usize * 9;
        let mut rows = vec![rising.clone()];
        for from in 0..9 {
            for to in 0..9 {
                let mut moved = rising.clone();
                let column = moved.remove(from);
                moved.insert(to, column);
                rows.push(moved);
                let mut twice = rising.clone();
                twice.insert(to, rising[from]);
                rows.push(twice);
            }
        }
        for row in rows {
            let falling: Vec<u32> = row.iter().rev().copied().collect();
            let matrix = with_rows(side, &[(2, row), (side - 1, falling)]);
            all_three(&matrix, &full(side), run);
            let mut region = full(side);
            region.words[0] &= !(1 << 3);
            all_three(&matrix, &region, run);
        }
    }
}

/// One entry in each of up to 40 words, rising, falling and in no order, some
/// stored twice.
fn many_words(rng: &mut Rng, run: &mut dyn FnMut(Call)) {
    let side = 64 * WORDS;
    for words in 1..=WORDS {
        let mut columns: Vec<u32> = (0..words as u32).map(|word| 64 * word + word).collect();
        let rising = columns.clone();
        columns.reverse();
        let falling = columns.clone();
        rng.shuffle(&mut columns);
        let shuffled = columns.clone();
        columns.extend_from_within(..words / 2);
        rng.shuffle(&mut columns);
        let rows = [
            (0, rising),
            (1, falling),
            (64, shuffled),
            (side - 1, columns),
        ];
        let matrix = with_rows(side, &rows);
        all_three(&matrix, &full(side), run);
        all_three(&matrix, &random_region(rng, side), run);
    }
}

/// With the nodes that have rows here, and others at random.
fn random_region(rng: &mut Rng, side: usize) -> Mask {
    let mut region = random_right(rng, side);
    for node in [0, 1, 64, side - 1] {
        region.words[node / 64] |= 1 << (node % 64);
    }
    region
}

/// A few rows of up to 100 entries in up to 40 words, in every order.
fn long_rows(rng: &mut Rng, run: &mut dyn FnMut(Call)) {
    for order in ORDERS {
        for side in [640, 641, 64 * WORDS - 1, 64 * WORDS] {
            for densest in [100, 12] {
                let rows =
                    [0, 1, 64, side - 1].map(|row| (row, ordered_row(rng, order, side, densest)));
                let matrix = with_rows(side, &rows);
                all_three(&matrix, &full(side), run);
                all_three(&matrix, &random_region(rng, side), run);
            }
        }
    }
}

/// All rows with entries, in every order.
fn many_entries(rng: &mut Rng, run: &mut dyn FnMut(Call)) {
    for order in ORDERS {
        for (side, densest) in [(3, 5), (12, 6), (65, 9), (129, 4), (300, 30), (1_000, 7)] {
            let matrix = valued(ordered(rng, order, side, side, densest));
            all_three(&matrix, &full(side), run);
            for _ in 0..4 {
                all_three(&matrix, &random_right(rng, side), run);
            }
        }
    }
}

/// One row of thousands of entries in thousands of words; one column 70,000
/// times; more than 65,536 members, pairs and sources.
fn longest(rng: &mut Rng, run: &mut dyn FnMut(Call)) {
    let side = 200_000;
    let third: Vec<usize> = (0..side).step_by(3).collect();
    for order in ORDERS {
        let columns = ordered_row(rng, order, side, 6_000);
        let matrix = with_rows(side, &[(7, vec![7]), (9, columns)]);
        all_three(&matrix, &mask_of(side, &third), run);
    }
    let matrix = with_rows(side, &[(9, ordered_row(rng, Order::Shuffled, side, 6_000))]);
    all_three(&matrix, &full(side), run);
    let mut again = vec![5; 70_000];
    again[100] = 4;
    again[69_999] = 6;
    let matrix = with_rows(10, &[(3, again), (4, vec![1])]);
    for region in [full(10), mask_of(10, &[3, 5]), mask_of(10, &[3, 4, 6])] {
        all_three(&matrix, &region, run);
    }
    let side = 70_000;
    let rows: Vec<Vec<u32>> = (0..side as u32)
        .map(|row| vec![side as u32 - 1 - row, row])
        .collect();
    let matrix = square(&rows);
    all_three(&matrix, &full(side), run);
    all_three(&matrix, &random_right(rng, side), run);
}
