//! Items 11 to 13: one side of a topology, its rows, and set operations.

use hybit_open::{AbtmDualTopology, AbtmTopology, Csr32Matrix};

use crate::line;

pub fn run() {
    limits();
    not_validated();
    operations();
}

fn limits() {
    line(
        "11a",
        "AbtmDualTopology::from_csr32, 0 rows, 1,048,577 columns: pointers of the columns",
        "1",
        || {
            let matrix = Csr32Matrix::new(0, 1_048_577, vec![0], vec![], vec![]).unwrap();
            AbtmDualTopology::from_csr32(&matrix).map(|built| built.columns.row_word_ptr.len())
        },
    );
    line(
        "11b",
        "AbtmTopology::validate, 0 rows, usize::MAX columns (hand-made)",
        "1",
        || side(0, usize::MAX, &[0], &[], &[]).validate(),
    );
    line(
        "11c",
        "AbtmTopology::validate, usize::MAX rows, no pointers (hand-made)",
        "1",
        || side(usize::MAX, 1, &[], &[], &[]).validate(),
    );
    line(
        "11d",
        "AbtmTopology::validate, 1 by 1, one word 1, pair count usize::MAX (hand-made)",
        "1",
        || {
            let mut wrong = side(1, 1, &[0, 1], &[0], &[1]);
            wrong.structural_nnz = usize::MAX;
            wrong.validate()
        },
    );
}

/// Only `validate` and the constructors look for a fault.
fn not_validated() {
    line(
        "12a",
        "AbtmTopology::stats, 1 by 1, one word 0 (hand-made)",
        "9",
        || empty_word().stats(),
    );
    line(
        "12b",
        "AbtmTopology::row 0, row pointers 1,0 and no word (hand-made)",
        "9",
        || side(1, 1, &[1, 0], &[], &[]).row(0).is_ok(),
    );
    line(
        "12c",
        "contains(0), rank(65), select(0) of a row with words 1,0 (hand-made), pairs 0 and 64",
        "9",
        || {
            let falling = side(1, 65, &[0, 2], &[1, 0], &[1, 1]);
            let row = falling.row(0).unwrap();
            (row.contains(0), row.rank(65), row.select(0))
        },
    );
    line(
        "12d",
        "AbtmDualTopology::validate, 1 by 2, pair (0,0), columns of the pair (0,1) (hand-made)",
        "9",
        || {
            AbtmDualTopology {
                rows: side(1, 2, &[0, 1], &[0], &[1]),
                columns: side(2, 1, &[0, 0, 1], &[0], &[1]),
            }
            .validate()
        },
    );
}

fn operations() {
    line(
        "13a",
        "union of a side of one word 0 (hand-made) and itself: words of the answer",
        "9",
        || {
            empty_word()
                .union(&empty_word())
                .map(|union| union.masks.len())
        },
    );
    line(
        "13b",
        "union of the same and a side of 2 by 1: sizes differ",
        "9",
        || empty_word().union(&side(2, 1, &[0, 0, 0], &[], &[])),
    );
    line(
        "13c",
        "intersection of a side with row pointers 0,1 and no word (hand-made) and itself",
        "9",
        || {
            let past = side(1, 1, &[0, 1], &[], &[]);
            past.intersection(&past).map(|both| both.masks)
        },
    );
}

fn empty_word() -> AbtmTopology {
    side(1, 1, &[0, 1], &[0], &[0])
}

fn side(
    nrows: usize,
    ncols: usize,
    pointers: &[u32],
    words: &[u32],
    masks: &[u64],
) -> AbtmTopology {
    AbtmTopology {
        nrows,
        ncols,
        row_word_ptr: pointers.to_vec(),
        word_indices: words.to_vec(),
        masks: masks.to_vec(),
        structural_nnz: masks.iter().map(|mask| mask.count_ones() as usize).sum(),
    }
}
