//! Items 14 and 15: plans that no call prepares, at a gather, and patterns and
//! plans on masks and topologies that the Rust does not check.

use hybit_open::{
    AbtmDualTopology, AbtmLocalNumericPlan, AbtmLocalNumericPlanStats, AbtmLocalSubmatrixPattern,
    AbtmLocalSubmatrixPatternStats, Csr32Matrix, DofMask, extract_local_submatrix_pattern,
    prepare_local_numeric_plan,
};

use crate::growth::{nodes, not_transposed};
use crate::line;

pub fn run() {
    gathers();
    not_checked();
}

fn gathers() {
    let one = [1.5];
    let two = [1.5, 2.25];
    line(
        "14a",
        "gather_values, no pointers, one source (hand-made)",
        "26",
        move || plan(&[], &[0], 1).gather_values(&one),
    );
    line(
        "14b",
        "gather_values, pointers 1,1, one source (hand-made)",
        "26",
        move || plan(&[1, 1], &[0], 1).gather_values(&one),
    );
    line(
        "14c",
        "gather_values, pointers 0,2,1, two sources (hand-made)",
        "26",
        move || plan(&[0, 2, 1], &[0, 1], 2).gather_values(&two),
    );
    line(
        "14d",
        "gather_values, pointers 0,0,1, two sources (hand-made)",
        "26",
        move || plan(&[0, 0, 1], &[0, 1], 2).gather_values(&two),
    );
    line(
        "14e",
        "gather_values, pointers 0,1, source 1 of one value (hand-made)",
        "26",
        move || plan(&[0, 1], &[1], 1).gather_values(&one),
    );
    line(
        "14f",
        "gather_values, pointers 1,1, one source, two values for one (hand-made)",
        "26 before 11",
        move || plan(&[1, 1], &[0], 1).gather_values(&two),
    );
    line(
        "14g",
        "gather_values, pointers 0,0,2, two sources, said to be direct (hand-made)",
        "no refusal; found from the pointers: 0.0, 3.75",
        move || {
            let mut plan = plan(&[0, 0, 2], &[0, 1], 2);
            plan.direct_source_map = true;
            plan.gather_values(&two)
        },
    );
    line(
        "14h",
        "gather_values, pointers 0,16777217, as many sources (hand-made): values",
        "1",
        move || {
            let most = 1 << 24;
            plan(&[0, most + 1], &vec![0; most as usize + 1], 1)
                .gather_values(&one)
                .map(|values| values.len())
        },
    );
}

fn not_checked() {
    line(
        "15a",
        "extract_local_submatrix_pattern, entries (0,1), (1,2), columns of (2,0), (0,2) (hand-made), region 0,1: columns",
        "9",
        || {
            extract_local_submatrix_pattern(&not_transposed(), &nodes(3, &[0, 1]))
                .map(|pattern| pattern.col_idx)
        },
    );
    line(
        "15b",
        "extract_local_submatrix_pattern, entry (0,64), mask of 65 with one word 1 (hand-made): members, columns",
        "11",
        || {
            extract_local_submatrix_pattern(&corner().1, &one_word())
                .map(|pattern| (pattern.global_nodes, pattern.col_idx))
        },
    );
    line(
        "15c",
        "prepare_local_numeric_plan on them: sources",
        "11",
        || {
            let (matrix, topology) = corner();
            prepare_local_numeric_plan(&topology, &matrix, &one_word())
                .map(|plan| plan.source_indices)
        },
    );
    line(
        "15d",
        "prepare_local_numeric_plan, mask of 65 with bits 1 and 2 of its second word (hand-made): members",
        "12",
        || {
            let (matrix, topology) = corner();
            let stray = DofMask {
                len: 65,
                words: vec![0, 6],
            };
            prepare_local_numeric_plan(&topology, &matrix, &stray)
                .map(|plan| plan.pattern.global_nodes)
        },
    );
}

/// Entry (0,64), side 65.
fn corner() -> (Csr32Matrix, AbtmDualTopology) {
    let mut row_ptr = vec![1; 66];
    row_ptr[0] = 0;
    let matrix = Csr32Matrix::new(65, 65, row_ptr, vec![64], vec![1.5]).unwrap();
    let topology = AbtmDualTopology::from_csr32(&matrix).unwrap();
    (matrix, topology)
}

fn one_word() -> DofMask {
    DofMask {
        len: 65,
        words: vec![1],
    }
}

/// Of its pattern only the number of pairs counts.
fn plan(source_ptr: &[u32], source_indices: &[u32], values: usize) -> AbtmLocalNumericPlan {
    AbtmLocalNumericPlan {
        pattern: AbtmLocalSubmatrixPattern {
            global_nodes: vec![],
            row_ptr: vec![],
            col_idx: vec![0; source_ptr.len().saturating_sub(1)],
            stats: AbtmLocalSubmatrixPatternStats::default(),
        },
        source_ptr: source_ptr.to_vec(),
        source_indices: source_indices.to_vec(),
        source_value_len: values,
        direct_source_map: false,
        stats: AbtmLocalNumericPlanStats::default(),
    }
}
