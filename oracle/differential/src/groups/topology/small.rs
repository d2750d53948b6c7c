//! Small matrices, sides and topologies, all of a kind.

use super::cases::{Pair, matrix, side, topology, turned};
use super::{Call, OPERATIONS, Side, Topology, questions};
use crate::groups::csr32::{Matrix, lists};

pub fn run(run: &mut dyn FnMut(Call)) {
    all_matrices(run);
    all_faulty_matrices(run);
    all_topologies(run);
    all_transposes(run);
    all_sides(run);
    all_pointers(run);
    all_operations(run);
}

/// Every matrix of up to 3 rows and columns with up to 4 entries in any order;
/// then with its rows and columns spread over several words.
fn all_matrices(run: &mut dyn FnMut(Call)) {
    for nrows in 0..=3 {
        for ncols in 0..=3 {
            each_matrix(nrows, ncols, &mut |matrix| {
                questions::of_matrix_in_rooms(matrix, run);
            });
        }
    }
    each_matrix(3, 3, &mut |matrix| {
        for (rows, columns) in [
            ([0, 1, 2], [0, 63, 64]),
            ([0, 1, 2], [5, 64, 130]),
            ([0, 63, 64], [0, 1, 2]),
            ([1, 64, 128], [63, 127, 128]),
        ] {
            questions::of_matrix(&spread(matrix, rows, columns), run);
        }
    });
}

fn each_matrix(nrows: usize, ncols: usize, work: &mut dyn FnMut(&Matrix)) {
    let choice: Vec<u32> = (0..ncols as u32).collect();
    for columns in lists(4, &choice) {
        each_split(nrows, &columns, &mut vec![], &mut |rows| {
            work(&matrix(ncols, rows));
        });
    }
}

/// The list cut into so many parts in every way.
fn each_split(
    parts: usize,
    list: &[u32],
    before: &mut Vec<Vec<u32>>,
    work: &mut dyn FnMut(&[Vec<u32>]),
) {
    if parts == 0 {
        if list.is_empty() {
            work(before);
        }
        return;
    }
    for cut in 0..=list.len() {
        before.push(list[..cut].to_vec());
        each_split(parts - 1, &list[cut..], before, work);
        before.pop();
    }
}

/// The three rows and columns of a matrix at other places, the sides as long
/// as these need.
fn spread(small: &Matrix, rows: [usize; 3], columns: [u32; 3]) -> Matrix {
    let mut all = vec![vec![]; rows[2] + 1];
    for (row, ends) in small.row_ptr.windows(2).enumerate() {
        let own = &small.col_idx[ends[0] as usize..ends[1] as usize];
        all[rows[row]] = own.iter().map(|&column| columns[column as usize]).collect();
    }
    matrix(columns[2] as usize + 1, &all)
}

/// Every choice of up to 2 rows and columns, of up to 3 pointers, of up to 2
/// columns and of up to 2 values.
fn all_faulty_matrices(run: &mut dyn FnMut(Call)) {
    let pointers = lists(3, &[0, 1, 2]);
    let columns = lists(2, &[0, 1, 2]);
    let values = lists(2, &[1.0, f64::NAN]);
    for nrows in 0..=2 {
        for ncols in 0..=2 {
            for row_ptr in &pointers {
                for col_idx in &columns {
                    for values in &values {
                        let matrix = Matrix {
                            nrows,
                            ncols,
                            row_ptr: row_ptr.clone(),
                            col_idx: col_idx.clone(),
                            values: values.clone(),
                        };
                        questions::of_matrix(&matrix, run);
                    }
                }
            }
        }
    }
}

/// Every topology of up to 3 rows and columns, with all questions.
fn all_topologies(run: &mut dyn FnMut(Call)) {
    for nrows in 0..=3 {
        for ncols in 0..=3 {
            for chosen in 0..1 << (nrows * ncols) {
                let topology = topology(nrows, ncols, &pairs(ncols, chosen));
                questions::of_topology(&topology, run);
                questions::of_all_rows(&topology, run);
            }
        }
    }
}

/// Every two sides of up to 3 by 3 that could be rows and columns.
fn all_transposes(run: &mut dyn FnMut(Call)) {
    let mut turn = 0;
    for nrows in 1..=3 {
        for ncols in 1..=3 {
            let chosen = 0..1 << (nrows * ncols);
            let pairs = chosen.map(|chosen| pairs(ncols, chosen));
            let all: Vec<(Side, Side)> = pairs
                .map(|pairs| {
                    let columns = side(ncols, nrows, &turned(&pairs));
                    (side(nrows, ncols, &pairs), columns)
                })
                .collect();
            for (rows, _) in &all {
                for (_, columns) in &all {
                    turn += 1;
                    let topology = Topology {
                        rows: rows.clone(),
                        columns: columns.clone(),
                    };
                    if turn % 16 == 0 {
                        questions::one_of_topology(&topology, turn / 16, run);
                    }
                    run(Call::Validate(topology));
                }
            }
        }
    }
}

/// One pair for each bit of a number.
fn pairs(ncols: usize, chosen: usize) -> Vec<Pair> {
    (0..9)
        .filter(|bit| chosen >> bit & 1 == 1)
        .map(|bit| (bit / ncols, bit % ncols))
        .collect()
}

/// Every choice of up to 2 rows, of a few columns, of up to 3 pointers from 0
/// to 2, of up to 2 word numbers from 0 to 2, of up to 2 masks and of up to 3
/// pairs.
fn all_sides(run: &mut dyn FnMut(Call)) {
    let pointers = lists(3, &[0, 1, 2]);
    let words = lists(2, &[0, 1, 2]);
    let masks = lists(2, &[0, 1, 2, 3]);
    let mut turn = 0;
    for nrows in 0..=2 {
        for ncols in [0, 1, 64, 65] {
            let other = side(nrows, ncols, &[]);
            for row_word_ptr in &pointers {
                for word_indices in &words {
                    for masks in &masks {
                        for structural_nnz in 0..=3 {
                            let side = Side {
                                nrows,
                                ncols,
                                row_word_ptr: row_word_ptr.clone(),
                                word_indices: word_indices.clone(),
                                masks: masks.clone(),
                                structural_nnz,
                            };
                            turn += 1;
                            if turn % 8 == 0 {
                                one_call(&side, &other, turn / 8, run);
                            }
                            run(Call::SideValidate(side));
                        }
                    }
                }
            }
        }
    }
}

/// Every choice of 4 pointers from 0 to 3 for 3 rows, and of up to 2 words with
/// every pair count that some reading of the pointers could give.
fn all_pointers(run: &mut dyn FnMut(Call)) {
    for pointers in 0..1 << 8 {
        let row_word_ptr: Vec<u32> = (0..4).map(|at| pointers >> (2 * at) & 3).collect();
        for masks in [&[][..], &[1], &[1, 1], &[1, 3]] {
            for word_indices in [&[][..], &[0], &[0, 0], &[0, 1], &[1, 0]] {
                for structural_nnz in 0..=8 {
                    run(Call::SideValidate(Side {
                        nrows: 3,
                        ncols: 66,
                        row_word_ptr: row_word_ptr.clone(),
                        word_indices: word_indices.to_vec(),
                        masks: masks.to_vec(),
                        structural_nnz,
                    }));
                }
            }
        }
    }
}

/// Of a side, or of a topology whose rows or columns it is.
fn one_call(side: &Side, other: &Side, turn: usize, run: &mut dyn FnMut(Call)) {
    let columns = Side {
        nrows: other.ncols,
        ncols: other.nrows,
        row_word_ptr: vec![0; other.ncols + 1],
        ..other.clone()
    };
    let topology = match turn % 3 {
        0 => return questions::one_of_side(side, other, turn / 3, run),
        1 => Topology {
            rows: side.clone(),
            columns,
        },
        _ => Topology {
            rows: columns,
            columns: side.clone(),
        },
    };
    questions::one_of_topology(&topology, turn / 3, run);
}

/// Every two sides of 2 rows and 2 words, each word missing, 1, 2 or 3.
fn all_operations(run: &mut dyn FnMut(Call)) {
    let all: Vec<Side> = (0..256).map(two_by_two).collect();
    for a in &all {
        for b in &all {
            for operation in OPERATIONS {
                questions::combine(operation, a, b, run);
            }
        }
    }
    for (a, b) in [(0, 0), (0, 255), (27, 228), (255, 255), (85, 170)] {
        for operation in OPERATIONS {
            questions::combine_in_rooms(operation, &all[a], &all[b], run);
        }
    }
}

fn two_by_two(masks: usize) -> Side {
    let pairs: Vec<Pair> = (0..8)
        .filter(|bit| masks >> bit & 1 == 1)
        .map(|bit| (bit / 4, bit / 2 % 2 * 64 + bit % 2))
        .collect();
    side(2, 66, &pairs)
}
