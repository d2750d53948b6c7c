//! Every refusal that the typed layer can meet, with its number, its sentence and its figures.

mod common;

use common::{blocks, chain, mask, matrix};
use hybit_matrix::{
    AbtmDualTopology, AbtmTopology, Csr32Matrix, DofEntityKind, DofMask, FieldAwareDofLayout,
    PreparedFieldAwareTopology, Refusal, extract_local_submatrix_pattern, field_block_owners,
    gather_values, grow_field_aware_region, grow_undirected_region, prepare_local_numeric_plan,
    prepare_region, region_multiplicity,
};

fn csr(
    nrows: usize,
    row_ptr: &[u32],
    col_idx: &[u32],
    values: &[f64],
) -> Result<Csr32Matrix, Refusal> {
    Csr32Matrix::new(
        nrows,
        3,
        row_ptr.to_vec(),
        col_idx.to_vec(),
        values.to_vec(),
    )
}

fn built(matrix: &Csr32Matrix) -> AbtmDualTopology {
    AbtmDualTopology::from_csr32(matrix).unwrap()
}

/// A topology of 2 by 3 without pairs.
fn oblong() -> AbtmDualTopology {
    built(&csr(2, &[0, 0, 0], &[], &[]).unwrap())
}

/// One side of 1 by 1 with a word of these bits.
fn one_word(bits: u64) -> Result<AbtmTopology, Refusal> {
    AbtmTopology::from_parts(1, 1, vec![0, 1], vec![0], vec![bits], 1)
}

/// A layout of bytes, two blocks of one component.
fn bytes(kinds: [u8; 2], ids: &[u64], offsets: &[u64]) -> Result<FieldAwareDofLayout, Refusal> {
    let (kinds, ids) = (kinds.to_vec(), ids.to_vec());
    FieldAwareDofLayout::from_parts(kinds, ids, vec![0; 2], vec![1; 2], offsets.to_vec())
}

fn check<T>(answer: Result<T, Refusal>, number: u32, sentence: &str) {
    let refusal = answer.err().expect("a refusal");
    assert_eq!(refusal.number, number);
    assert_eq!(refusal.sentence(), sentence);
    if number != 11 {
        assert_eq!((refusal.expected, refusal.actual), (0, 0));
        let shown = format!("refused by {number}: {sentence}");
        assert_eq!(refusal.to_string(), shown);
    }
}

const OVER: &str = "side, mask length, node count or layout total over 1,048,576; either entry list, a topology's words or pairs, or sources over 16,777,216; regions over 65,536";

#[test]
fn over_the_limits() {
    let over = (1 << 20) + 1;
    check(DofMask::new(over), 1, OVER);
    check(DofMask::new(usize::MAX), 1, OVER);
    check(DofMask::from_indices(usize::MAX, &[0]), 1, OVER);
    check(DofMask::from_words(over, vec![]), 1, OVER);
    check(csr(over, &[], &[], &[]), 1, OVER);
    check(blocks(&[1 << 20, 1]), 1, OVER);
    check(region_multiplicity(usize::MAX, &[]), 1, OVER);
    check(region_multiplicity(usize::MAX, &[mask(3, &[])]), 1, OVER);
    let regions = vec![mask(1, &[]); 65_537];
    check(region_multiplicity(2, &regions), 1, OVER);
    let side = AbtmTopology::from_parts(over, 1, vec![], vec![], vec![], 0);
    check(side, 1, OVER);
}

#[test]
fn of_matrices() {
    check(
        csr(2, &[0, 1], &[0], &[1.0]),
        2,
        "row_ptr length is not nrows + 1",
    );
    check(
        csr(1, &[0, 0], &[0], &[]),
        3,
        "col_idx and values lengths differ",
    );
    check(
        csr(1, &[1, 1], &[0], &[1.0]),
        4,
        "row_ptr does not start at 0",
    );
    check(
        csr(1, &[0, 2], &[0], &[1.0]),
        5,
        "last row_ptr is not the entry count",
    );
    check(csr(2, &[0, 2, 1], &[0], &[1.0]), 6, "row_ptr falls");
    check(csr(1, &[0, 1], &[3], &[1.0]), 7, "column not below ncols");
    check(
        csr(1, &[0, 1], &[0], &[f64::INFINITY]),
        8,
        "any value not finite",
    );
}

#[test]
fn of_topologies() {
    let sentence = "a topology fails `AbtmTopology::validate` or `AbtmDualTopology::validate`, or its columns are not the transpose of its rows";
    check(one_word(0), 9, sentence);
    let sides = [(0, 1), (1, 1)].map(|(row, column)| matrix(2, &[(row, column, 1.0)]));
    let [rows, columns] = sides.map(|side| AbtmTopology::from_csr32(&side).unwrap());
    check(AbtmDualTopology::from_sides(rows, columns), 9, sentence);
    let square = "topology not square";
    check(
        grow_undirected_region(&oblong(), &mask(2, &[]), 1),
        10,
        square,
    );
    check(
        extract_local_submatrix_pattern(&oblong(), &mask(2, &[])),
        10,
        square,
    );
    let sides = "topology and matrix sides differ";
    check(
        prepare_local_numeric_plan(&oblong(), &chain(), &mask(2, &[])),
        22,
        sides,
    );
    let one = one_word(1).unwrap();
    check(one.union(oblong().row_topology()), 22, sides);
    check(one.row(1), 13, "index or rank offset out of range");
}

/// 11, the one number with figures.
fn wrong_length<T>(answer: Result<T, Refusal>, expected: u64, actual: u64) {
    let sentence = "a mask, owner list, value list or block list has the wrong length";
    let refusal = answer.err().expect("a refusal");
    assert_eq!((refusal.expected, refusal.actual), (expected, actual));
    let shown = format!("refused by 11: {sentence} (expected {expected}, actual {actual})");
    assert_eq!(refusal.to_string(), shown);
    check(Err::<(), _>(refusal), 11, sentence);
}

#[test]
fn of_lengths() {
    let (topology, layout) = (built(&chain()), blocks(&[2, 1]).unwrap());
    let four = mask(4, &[3]);
    wrong_length(grow_undirected_region(&topology, &four, 1), 3, 4);
    wrong_length(grow_field_aware_region(&topology, &layout, &four, 1), 3, 4);
    wrong_length(prepare_region(&chain(), &layout, &four, 1), 3, 4);
    wrong_length(extract_local_submatrix_pattern(&topology, &four), 3, 4);
    wrong_length(DofMask::from_words(65, vec![0]), 2, 1);
    wrong_length(mask(3, &[]).union_assign(&four), 3, 4);
    wrong_length(field_block_owners(&layout, &[0], 1), 3, 1);
    wrong_length(bytes([1, 1], &[0, 1, 2], &[0, 1, 2]), 2, 3);
    // Both have one word: the flat list alone would not show it.
    wrong_length(region_multiplicity(3, &[mask(3, &[]), four]), 3, 4);
}

#[test]
fn of_values() {
    let plan = prepare_local_numeric_plan(&built(&chain()), &chain(), &mask(3, &[0])).unwrap();
    wrong_length(plan.gather_values(&[1.0]), 2, 1);
    let not_finite = plan.gather_values(&[1.0, f64::NAN]);
    check(not_finite, 8, "any value not finite");
}

#[test]
fn of_masks() {
    let past = "a bit at or past the length";
    check(DofMask::from_words(65, vec![0, 2]), 12, past);
    let range = "index or rank offset out of range";
    check(DofMask::from_indices(3, &[3]), 13, range);
    check(mask(3, &[]).set(3, true), 13, range);
    check(hybit_matrix::weight(3, &[mask(3, &[])], 1, 0), 13, range);
}

#[test]
fn of_layouts() {
    check(blocks(&[]), 14, "layout has no block");
    check(blocks(&[2, 0]), 15, "block with 0 components");
    check(
        bytes([1, 1], &[4, 4], &[0, 1, 2]),
        16,
        "entity kind, id and field id all repeat",
    );
    let kind = "kind byte is not 1 to 6 or 255";
    check(bytes([1, 7], &[0, 1], &[0, 1, 2]), 17, kind);
    check(DofEntityKind::from_code(7), 17, kind);
    let sides = "layout total is not both sides";
    let four = blocks(&[2, 2]).unwrap();
    check(four.validate_square_matrix_size(3, 3), 18, sides);
    check(PreparedFieldAwareTopology::new(&chain(), &four), 18, sides);
    check(prepare_region(&chain(), &four, &mask(4, &[]), 1), 18, sides);
    check(
        grow_field_aware_region(&built(&chain()), &four, &mask(4, &[]), 1),
        18,
        sides,
    );
    let two = blocks(&[2]).unwrap();
    check(field_block_owners(&two, &[0, 0], 0), 19, "ranks is 0");
    check(
        field_block_owners(&two, &[5, 9], 4),
        20,
        "a block's first owner is not below ranks",
    );
    check(
        field_block_owners(&two, &[1, 9], 4),
        21,
        "owners differ inside a block",
    );
    let list = "a plan's pointers are empty, do not start at 0, fall, or do not end at the source count, or a source is not below the value count; a layout's offset list, length included, is not its running totals";
    check(bytes([1, 1], &[0, 1], &[0, 2, 2]), 26, list);
    check(gather_values(&[1, 1], &[], 0, &[]), 26, list);
}

#[test]
fn of_plans() {
    let (empty, full) = (matrix(1, &[]), matrix(1, &[(0, 0, 1.0)]));
    let region = mask(1, &[0]);
    let missing = prepare_local_numeric_plan(&built(&full), &empty, &region);
    check(
        missing,
        23,
        "a topology pair inside the region has no entry",
    );
    let unknown = prepare_local_numeric_plan(&built(&empty), &full, &region);
    check(
        unknown,
        24,
        "an entry inside the region is missing from the topology",
    );
}

/// A refusal changes nothing.
#[test]
fn unchanged() {
    let mut kept = mask(70, &[0, 69]);
    let before = kept.clone();
    let longer = mask(71, &[5]);
    assert!(kept.set(70, true).is_err());
    assert!(kept.union_assign(&longer).is_err());
    assert!(kept.intersect_assign(&longer).is_err());
    assert!(kept.and_not_assign(&longer).is_err());
    assert_eq!(kept, before);
    kept.or_word(1, u64::MAX);
    assert_eq!(kept.count_ones(), 7);
    kept.or_word(2, 1);
    assert_eq!(kept.words(), [1, 63]);
}
