//! Items 5 and 6, and the empty matrix: topologies.

use hybit_open::{
    AbtmDualTopology, AbtmTopology, Csr32Matrix, DofBlock, DofEntityKind, DofMask,
    FieldAwareDofLayout, PreparedFieldAwareTopology, extract_local_submatrix_pattern,
    grow_undirected_region, prepare_local_numeric_plan,
};

use crate::line;

pub fn run() {
    line(
        "5a",
        "AbtmDualTopology::validate, entries (0,1), (1,2), columns of (2,0), (0,2) (hand-made)",
        "9",
        || not_transposed().validate(),
    );
    line(
        "5b",
        "grow_undirected_region on it, seed 0, 1 hop: region (the entries give 0,1)",
        "9",
        || grow(&not_transposed(), &[0], 1),
    );
    line(
        "6a",
        "AbtmDualTopology::validate, row pointers 0,1,0 over one word (hand-made)",
        "9",
        || falling().validate(),
    );
    line(
        "6b",
        "grow_undirected_region on it, seeds 0,1, 1 hop",
        "9",
        || grow(&falling(), &[0, 1], 1),
    );
    line(
        "6c",
        "extract_local_submatrix_pattern on it, region 0,1",
        "9",
        || extract_local_submatrix_pattern(&falling(), &nodes(2, &[0, 1])).map(|_| "accepted"),
    );
    line(
        "6d",
        "prepare_local_numeric_plan on it and a 2 by 2 matrix, region 0,1",
        "9",
        || {
            let matrix = Csr32Matrix::new(2, 2, vec![0, 0, 0], vec![], vec![]).unwrap();
            prepare_local_numeric_plan(&falling(), &matrix, &nodes(2, &[0, 1])).map(|_| "accepted")
        },
    );
    line(
        "6e",
        "prepare_local_numeric_plan, matrix row pointers 0,1,0 (hand-made), region 0,1",
        "6",
        || {
            let right = Csr32Matrix::new(2, 2, vec![0, 0, 0], vec![], vec![]).unwrap();
            let topology = AbtmDualTopology::from_csr32(&right).unwrap();
            let mut matrix = right;
            matrix.row_ptr = vec![0, 1, 0];
            prepare_local_numeric_plan(&topology, &matrix, &nodes(2, &[0, 1])).map(|_| "accepted")
        },
    );
}

/// The Rust and 01 agree here; the lines stand for the record.
pub fn empty_matrix() {
    line("0x0", "growth, 9 hops: statistics", "no refusal", || {
        let topology = AbtmDualTopology::from_csr32(&empty()).unwrap();
        grow_undirected_region(&topology, &nodes(0, &[]), 9).map(|growth| growth.stats())
    });
    line(
        "0x0",
        "plan: source pointers, statistics, gathered",
        "no refusal",
        || {
            let topology = AbtmDualTopology::from_csr32(&empty()).unwrap();
            let plan = prepare_local_numeric_plan(&topology, &empty(), &nodes(0, &[])).unwrap();
            let gathered = plan.gather_values(&[]);
            (plan.source_ptr.clone(), plan.stats(), gathered)
        },
    );
    line("0x0", "prepared topology, layout of one node", "18", || {
        let block = DofBlock {
            entity_kind: DofEntityKind::Node,
            entity_id: 0,
            field_id: 0,
            components: 1,
        };
        let layout = FieldAwareDofLayout::new(vec![block]).unwrap();
        PreparedFieldAwareTopology::new(&empty(), &layout).map(|_| "accepted")
    });
}

fn empty() -> Csr32Matrix {
    Csr32Matrix::new(0, 0, vec![0], vec![], vec![]).unwrap()
}

pub fn nodes(len: usize, indices: &[usize]) -> DofMask {
    DofMask::from_indices(len, indices).unwrap()
}

fn grow(topology: &AbtmDualTopology, seeds: &[usize], hops: usize) -> Vec<usize> {
    let seeds = nodes(topology.nrows(), seeds);
    let growth = grow_undirected_region(topology, &seeds, hops).unwrap();
    growth.region().indices()
}

fn side(size: usize, row_word_ptr: &[u32], masks: &[u64]) -> AbtmTopology {
    AbtmTopology {
        nrows: size,
        ncols: size,
        row_word_ptr: row_word_ptr.to_vec(),
        word_indices: vec![0; masks.len()],
        masks: masks.to_vec(),
        structural_nnz: masks.iter().map(|mask| mask.count_ones() as usize).sum(),
    }
}

/// Rows of the entries (0,1) and (1,2), columns of the entries (2,0), (0,2).
pub fn not_transposed() -> AbtmDualTopology {
    AbtmDualTopology {
        rows: side(3, &[0, 1, 2, 2], &[2, 4]),
        columns: side(3, &[0, 1, 1, 2], &[4, 1]),
    }
}

fn falling() -> AbtmDualTopology {
    AbtmDualTopology {
        rows: side(2, &[0, 1, 0], &[3]),
        columns: side(2, &[0, 0, 0], &[]),
    }
}
