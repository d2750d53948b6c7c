//! Every call on lists that the caller lends: nothing is allocated.
//!
//! Made by tools/exports from crates/hybit_matrix/src: do not edit. The same functions, in the same order, as in
//! include/hybit_matrix.h; each answers with one flat record, in which `number` is 0 or the number of a refusal.
//!
//! Lists of any length and any bits may be passed: each call is proved to read and write only what it was lent.

pub use crate::raw::{
    Answer, PairAnswer, TopologyStatsAnswer, DualStatsAnswer, BuildAnswer, GrowthAnswer, FieldGrowthAnswer, MultiplicityAnswer, PatternAnswer, PlanAnswer, PreparedAnswer,
};

/// The width of a word, 64.
pub fn hybit_word_bits() -> usize {
    // SAFETY: numbers only.
    unsafe { crate::raw::hybit_word_bits() }
}

/// The word's number in its row.
pub fn hybit_word_word_index(word_index: u32, mask: u64) -> u32 {
    // SAFETY: numbers only.
    unsafe { crate::raw::hybit_word_word_index(word_index, mask) }
}

/// The column of the word's bit 0: 64 times its number.
pub fn hybit_word_base_col(word_index: u32, mask: u64) -> usize {
    // SAFETY: numbers only.
    unsafe { crate::raw::hybit_word_base_col(word_index, mask) }
}

/// The word's bits.
pub fn hybit_word_mask(word_index: u32, mask: u64) -> u64 {
    // SAFETY: numbers only.
    unsafe { crate::raw::hybit_word_mask(word_index, mask) }
}

/// How many bits are set.
pub fn hybit_word_popcount(word_index: u32, mask: u64) -> usize {
    // SAFETY: numbers only.
    unsafe { crate::raw::hybit_word_popcount(word_index, mask) }
}

/// Whether bit `offset` is set; past 63: no.
pub fn hybit_word_contains_offset(word_index: u32, mask: u64, offset: usize) -> bool {
    // SAFETY: numbers only.
    unsafe { crate::raw::hybit_word_contains_offset(word_index, mask, offset) }
}

/// value: how many set bits stand below `offset`. Refuses 13 past 64.
pub fn hybit_word_rank(word_index: u32, mask: u64, offset: usize) -> Answer {
    // SAFETY: numbers only.
    unsafe { crate::raw::hybit_word_rank(word_index, mask, offset) }
}

/// value: the set bit number `ordinal`, counted from 0; or none.
pub fn hybit_word_select(word_index: u32, mask: u64, ordinal: usize) -> Answer {
    // SAFETY: numbers only.
    unsafe { crate::raw::hybit_word_select(word_index, mask, ordinal) }
}

/// Checks a matrix: 1 to 8.
pub fn hybit_csr32_validate(nrows: usize, ncols: usize, row_ptr: &[u32], col_idx: &[u32], values: &[f64]) -> Answer {
    // SAFETY: each pointer goes with the count of its own list.
    unsafe { crate::raw::hybit_csr32_validate(nrows, ncols, row_ptr.as_ptr(), row_ptr.len(), col_idx.as_ptr(), col_idx.len(), values.as_ptr(), values.len()) }
}

/// Checks a mask: 1, 11, 12. A mask of `len` nodes has exactly `len` / 64 words, rounded up.
pub fn hybit_mask_check(len: usize, words: &[u64]) -> Answer {
    // SAFETY: each pointer goes with the count of its own list.
    unsafe { crate::raw::hybit_mask_check(len, words.as_ptr(), words.len()) }
}

/// The empty mask in `out`, which needs its words. Refuses 1, 25.
pub fn hybit_mask_new(len: usize, out: &mut [u64]) -> Answer {
    // SAFETY: each pointer goes with the count of its own list.
    unsafe { crate::raw::hybit_mask_new(len, out.as_mut_ptr(), out.len()) }
}

/// The mask of the indices in `out`, which needs its words. Refuses 1, 13, 25.
pub fn hybit_mask_from_indices(len: usize, indices: &[u64], out: &mut [u64]) -> Answer {
    // SAFETY: each pointer goes with the count of its own list.
    unsafe { crate::raw::hybit_mask_from_indices(len, indices.as_ptr(), indices.len(), out.as_mut_ptr(), out.len()) }
}

/// value: 1 if no node is set, else 0. Refuses as the check.
pub fn hybit_mask_is_empty(len: usize, words: &[u64]) -> Answer {
    // SAFETY: each pointer goes with the count of its own list.
    unsafe { crate::raw::hybit_mask_is_empty(len, words.as_ptr(), words.len()) }
}

/// value: how many nodes are set. Refuses as the check.
pub fn hybit_mask_count_ones(len: usize, words: &[u64]) -> Answer {
    // SAFETY: each pointer goes with the count of its own list.
    unsafe { crate::raw::hybit_mask_count_ones(len, words.as_ptr(), words.len()) }
}

/// Sets or clears one node. Refuses as the check, then 13.
pub fn hybit_mask_set(len: usize, words: &mut [u64], index: u64, value: bool) -> Answer {
    // SAFETY: each pointer goes with the count of its own list.
    unsafe { crate::raw::hybit_mask_set(len, words.as_mut_ptr(), words.len(), index, value) }
}

/// value: 1 if the node is set, else 0; past the length 0. Refuses as the check.
pub fn hybit_mask_contains(len: usize, words: &[u64], index: u64) -> Answer {
    // SAFETY: each pointer goes with the count of its own list.
    unsafe { crate::raw::hybit_mask_contains(len, words.as_ptr(), words.len(), index) }
}

/// Joins the other mask to the first. Refuses as the check, then for the other 11 (its length, its words), 12.
pub fn hybit_mask_union_assign(len: usize, words: &mut [u64], other_len: usize, other: &[u64]) -> Answer {
    // SAFETY: each pointer goes with the count of its own list.
    unsafe { crate::raw::hybit_mask_union_assign(len, words.as_mut_ptr(), words.len(), other_len, other.as_ptr(), other.len()) }
}

/// Keeps the nodes that both have. Refuses as the union.
pub fn hybit_mask_intersect_assign(len: usize, words: &mut [u64], other_len: usize, other: &[u64]) -> Answer {
    // SAFETY: each pointer goes with the count of its own list.
    unsafe { crate::raw::hybit_mask_intersect_assign(len, words.as_mut_ptr(), words.len(), other_len, other.as_ptr(), other.len()) }
}

/// Takes the other mask's nodes away. Refuses as the union.
pub fn hybit_mask_and_not_assign(len: usize, words: &mut [u64], other_len: usize, other: &[u64]) -> Answer {
    // SAFETY: each pointer goes with the count of its own list.
    unsafe { crate::raw::hybit_mask_and_not_assign(len, words.as_mut_ptr(), words.len(), other_len, other.as_ptr(), other.len()) }
}

/// value: 1 if both have a node, else 0. Refuses as the union.
pub fn hybit_mask_intersects(len: usize, words: &[u64], other_len: usize, other: &[u64]) -> Answer {
    // SAFETY: each pointer goes with the count of its own list.
    unsafe { crate::raw::hybit_mask_intersects(len, words.as_ptr(), words.len(), other_len, other.as_ptr(), other.len()) }
}

/// The nodes in rising order in `out`, which needs one place for each; value: how many. Refuses as the check, then 25.
pub fn hybit_mask_indices(len: usize, words: &[u64], out: &mut [u64]) -> Answer {
    // SAFETY: each pointer goes with the count of its own list.
    unsafe { crate::raw::hybit_mask_indices(len, words.as_ptr(), words.len(), out.as_mut_ptr(), out.len()) }
}

/// Sets the bits in one word; past the last word nothing changes, bits past the length are dropped. Refuses as the check.
pub fn hybit_mask_or_word(len: usize, words: &mut [u64], word_index: u64, bits: u64) -> Answer {
    // SAFETY: each pointer goes with the count of its own list.
    unsafe { crate::raw::hybit_mask_or_word(len, words.as_mut_ptr(), words.len(), word_index, bits) }
}

/// value: the kind's number, which is the code. Refuses 17.
pub fn hybit_kind_of(code: u32) -> Answer {
    // SAFETY: numbers only.
    unsafe { crate::raw::hybit_kind_of(code) }
}

/// Running totals of the components in `out`, which needs blocks + 1; value: the total. Refuses 14, 11, by block 17, 15, 16, 1, then 25.
pub fn hybit_layout_new(entity_kinds: &[u8], entity_ids: &[u64], field_ids: &[u32], components: &[u32], out: &mut [u64]) -> Answer {
    // SAFETY: each pointer goes with the count of its own list.
    unsafe { crate::raw::hybit_layout_new(entity_kinds.as_ptr(), entity_kinds.len(), entity_ids.as_ptr(), entity_ids.len(), field_ids.as_ptr(), field_ids.len(), components.as_ptr(), components.len(), out.as_mut_ptr(), out.len()) }
}

/// Checks a layout: as new, then 26.
pub fn hybit_layout_check(entity_kinds: &[u8], entity_ids: &[u64], field_ids: &[u32], components: &[u32], offsets: &[u64]) -> Answer {
    // SAFETY: each pointer goes with the count of its own list.
    unsafe { crate::raw::hybit_layout_check(entity_kinds.as_ptr(), entity_kinds.len(), entity_ids.as_ptr(), entity_ids.len(), field_ids.as_ptr(), field_ids.len(), components.as_ptr(), components.len(), offsets.as_ptr(), offsets.len()) }
}

/// value: the total. Refuses as the check.
pub fn hybit_layout_total_dofs(entity_kinds: &[u8], entity_ids: &[u64], field_ids: &[u32], components: &[u32], offsets: &[u64]) -> Answer {
    // SAFETY: each pointer goes with the count of its own list.
    unsafe { crate::raw::hybit_layout_total_dofs(entity_kinds.as_ptr(), entity_kinds.len(), entity_ids.as_ptr(), entity_ids.len(), field_ids.as_ptr(), field_ids.len(), components.as_ptr(), components.len(), offsets.as_ptr(), offsets.len()) }
}

/// first and second: start and end of a block; past the last block none. Refuses as the check.
pub fn hybit_layout_block_range(entity_kinds: &[u8], entity_ids: &[u64], field_ids: &[u32], components: &[u32], offsets: &[u64], index: u64) -> PairAnswer {
    // SAFETY: each pointer goes with the count of its own list.
    unsafe { crate::raw::hybit_layout_block_range(entity_kinds.as_ptr(), entity_kinds.len(), entity_ids.as_ptr(), entity_ids.len(), field_ids.as_ptr(), field_ids.len(), components.as_ptr(), components.len(), offsets.as_ptr(), offsets.len(), index) }
}

/// first and second: block and component of a node; past the last node none. Refuses as the check.
pub fn hybit_layout_locate(entity_kinds: &[u8], entity_ids: &[u64], field_ids: &[u32], components: &[u32], offsets: &[u64], dof: u64) -> PairAnswer {
    // SAFETY: each pointer goes with the count of its own list.
    unsafe { crate::raw::hybit_layout_locate(entity_kinds.as_ptr(), entity_kinds.len(), entity_ids.as_ptr(), entity_ids.len(), field_ids.as_ptr(), field_ids.len(), components.as_ptr(), components.len(), offsets.as_ptr(), offsets.len(), dof) }
}

/// Whether the total is both sides. Refuses as the check, then 18.
pub fn hybit_layout_validate_square_matrix_size(entity_kinds: &[u8], entity_ids: &[u64], field_ids: &[u32], components: &[u32], offsets: &[u64], nrows: usize, ncols: usize) -> Answer {
    // SAFETY: each pointer goes with the count of its own list.
    unsafe { crate::raw::hybit_layout_validate_square_matrix_size(entity_kinds.as_ptr(), entity_kinds.len(), entity_ids.as_ptr(), entity_ids.len(), field_ids.as_ptr(), field_ids.len(), components.as_ptr(), components.len(), offsets.as_ptr(), offsets.len(), nrows, ncols) }
}

/// The mask of a field's nodes in `out`, which needs the words of a mask of the total; value: the total. Refuses as the check, then 25.
pub fn hybit_layout_field_mask(entity_kinds: &[u8], entity_ids: &[u64], field_ids: &[u32], components: &[u32], offsets: &[u64], field_id: u32, out: &mut [u64]) -> Answer {
    // SAFETY: each pointer goes with the count of its own list.
    unsafe { crate::raw::hybit_layout_field_mask(entity_kinds.as_ptr(), entity_kinds.len(), entity_ids.as_ptr(), entity_ids.len(), field_ids.as_ptr(), field_ids.len(), components.as_ptr(), components.len(), offsets.as_ptr(), offsets.len(), field_id, out.as_mut_ptr(), out.len()) }
}

/// Checks one side: 1, 9.
pub fn hybit_topology_validate(nrows: usize, ncols: usize, row_word_ptr: &[u32], word_indices: &[u32], masks: &[u64], structural_nnz: usize) -> Answer {
    // SAFETY: each pointer goes with the count of its own list.
    unsafe { crate::raw::hybit_topology_validate(nrows, ncols, row_word_ptr.as_ptr(), row_word_ptr.len(), word_indices.as_ptr(), word_indices.len(), masks.as_ptr(), masks.len(), structural_nnz) }
}

/// Counts, bytes and ratios of one side. Refuses 1, 9.
pub fn hybit_topology_stats(nrows: usize, ncols: usize, row_word_ptr: &[u32], word_indices: &[u32], masks: &[u64], structural_nnz: usize) -> TopologyStatsAnswer {
    // SAFETY: each pointer goes with the count of its own list.
    unsafe { crate::raw::hybit_topology_stats(nrows, ncols, row_word_ptr.as_ptr(), row_word_ptr.len(), word_indices.as_ptr(), word_indices.len(), masks.as_ptr(), masks.len(), structural_nnz) }
}

/// One side of a matrix's pairs: the lists need nrows + 1 pointers and as many words as entries, zero past its own; first and second: words and
/// pairs. Refuses 1 to 8, 25.
pub fn hybit_topology_from_csr32(nrows: usize, ncols: usize, row_ptr: &[u32], col_idx: &[u32], values: &[f64], row_word_ptr: &mut [u32], word_indices: &mut [u32], masks: &mut [u64]) -> PairAnswer {
    // SAFETY: each pointer goes with the count of its own list.
    unsafe { crate::raw::hybit_topology_from_csr32(nrows, ncols, row_ptr.as_ptr(), row_ptr.len(), col_idx.as_ptr(), col_idx.len(), values.as_ptr(), values.len(), row_word_ptr.as_mut_ptr(), row_word_ptr.len(), word_indices.as_mut_ptr(), word_indices.len(), masks.as_mut_ptr(), masks.len()) }
}

/// The pairs that both sides have: the lists need nrows + 1 pointers and as many words as both together, zero past its own; first and second:
/// words and pairs. Refuses 1, 9 for each, 22, 25.
pub fn hybit_topology_intersection(nrows: usize, ncols: usize, ptr_a: &[u32], words_a: &[u32], masks_a: &[u64], pairs_a: usize, nrows_b: usize, ncols_b: usize, ptr_b: &[u32], words_b: &[u32], masks_b: &[u64], pairs_b: usize, row_word_ptr: &mut [u32], word_indices: &mut [u32], masks: &mut [u64]) -> PairAnswer {
    // SAFETY: each pointer goes with the count of its own list.
    unsafe { crate::raw::hybit_topology_intersection(nrows, ncols, ptr_a.as_ptr(), ptr_a.len(), words_a.as_ptr(), words_a.len(), masks_a.as_ptr(), masks_a.len(), pairs_a, nrows_b, ncols_b, ptr_b.as_ptr(), ptr_b.len(), words_b.as_ptr(), words_b.len(), masks_b.as_ptr(), masks_b.len(), pairs_b, row_word_ptr.as_mut_ptr(), row_word_ptr.len(), word_indices.as_mut_ptr(), word_indices.len(), masks.as_mut_ptr(), masks.len()) }
}

/// The pairs of either side; all else as the intersection.
pub fn hybit_topology_union(nrows: usize, ncols: usize, ptr_a: &[u32], words_a: &[u32], masks_a: &[u64], pairs_a: usize, nrows_b: usize, ncols_b: usize, ptr_b: &[u32], words_b: &[u32], masks_b: &[u64], pairs_b: usize, row_word_ptr: &mut [u32], word_indices: &mut [u32], masks: &mut [u64]) -> PairAnswer {
    // SAFETY: each pointer goes with the count of its own list.
    unsafe { crate::raw::hybit_topology_union(nrows, ncols, ptr_a.as_ptr(), ptr_a.len(), words_a.as_ptr(), words_a.len(), masks_a.as_ptr(), masks_a.len(), pairs_a, nrows_b, ncols_b, ptr_b.as_ptr(), ptr_b.len(), words_b.as_ptr(), words_b.len(), masks_b.as_ptr(), masks_b.len(), pairs_b, row_word_ptr.as_mut_ptr(), row_word_ptr.len(), word_indices.as_mut_ptr(), word_indices.len(), masks.as_mut_ptr(), masks.len()) }
}

/// The pairs of the first side that the second lacks; all else as the intersection.
pub fn hybit_topology_and_not(nrows: usize, ncols: usize, ptr_a: &[u32], words_a: &[u32], masks_a: &[u64], pairs_a: usize, nrows_b: usize, ncols_b: usize, ptr_b: &[u32], words_b: &[u32], masks_b: &[u64], pairs_b: usize, row_word_ptr: &mut [u32], word_indices: &mut [u32], masks: &mut [u64]) -> PairAnswer {
    // SAFETY: each pointer goes with the count of its own list.
    unsafe { crate::raw::hybit_topology_and_not(nrows, ncols, ptr_a.as_ptr(), ptr_a.len(), words_a.as_ptr(), words_a.len(), masks_a.as_ptr(), masks_a.len(), pairs_a, nrows_b, ncols_b, ptr_b.as_ptr(), ptr_b.len(), words_b.as_ptr(), words_b.len(), masks_b.as_ptr(), masks_b.len(), pairs_b, row_word_ptr.as_mut_ptr(), row_word_ptr.len(), word_indices.as_mut_ptr(), word_indices.len(), masks.as_mut_ptr(), masks.len()) }
}

/// The pairs that one side alone has; all else as the intersection.
pub fn hybit_topology_xor(nrows: usize, ncols: usize, ptr_a: &[u32], words_a: &[u32], masks_a: &[u64], pairs_a: usize, nrows_b: usize, ncols_b: usize, ptr_b: &[u32], words_b: &[u32], masks_b: &[u64], pairs_b: usize, row_word_ptr: &mut [u32], word_indices: &mut [u32], masks: &mut [u64]) -> PairAnswer {
    // SAFETY: each pointer goes with the count of its own list.
    unsafe { crate::raw::hybit_topology_xor(nrows, ncols, ptr_a.as_ptr(), ptr_a.len(), words_a.as_ptr(), words_a.len(), masks_a.as_ptr(), masks_a.len(), pairs_a, nrows_b, ncols_b, ptr_b.as_ptr(), ptr_b.len(), words_b.as_ptr(), words_b.len(), masks_b.as_ptr(), masks_b.len(), pairs_b, row_word_ptr.as_mut_ptr(), row_word_ptr.len(), word_indices.as_mut_ptr(), word_indices.len(), masks.as_mut_ptr(), masks.len()) }
}

/// Both sides of a matrix's pairs: each needs its rows + 1 pointers and as many words as entries, zero past its own. `starts` (ncols + 1) and
/// `order` (one for each entry) are scratch, zero afterwards. Refuses 1 to 8, 25.
pub fn hybit_dual_topology_from_csr32(nrows: usize, ncols: usize, row_ptr: &[u32], col_idx: &[u32], values: &[f64], row_word_ptr: &mut [u32], row_word_indices: &mut [u32], row_masks: &mut [u64], column_word_ptr: &mut [u32], column_word_indices: &mut [u32], column_masks: &mut [u64], starts: &mut [u32], order: &mut [u32]) -> BuildAnswer {
    // SAFETY: each pointer goes with the count of its own list.
    unsafe { crate::raw::hybit_dual_topology_from_csr32(nrows, ncols, row_ptr.as_ptr(), row_ptr.len(), col_idx.as_ptr(), col_idx.len(), values.as_ptr(), values.len(), row_word_ptr.as_mut_ptr(), row_word_ptr.len(), row_word_indices.as_mut_ptr(), row_word_indices.len(), row_masks.as_mut_ptr(), row_masks.len(), column_word_ptr.as_mut_ptr(), column_word_ptr.len(), column_word_indices.as_mut_ptr(), column_word_indices.len(), column_masks.as_mut_ptr(), column_masks.len(), starts.as_mut_ptr(), starts.len(), order.as_mut_ptr(), order.len()) }
}

/// Checks a topology: 1 (both sides), 9 (each side, and that the columns are the transpose of the rows).
pub fn hybit_dual_topology_validate(nrows: usize, ncols: usize, row_word_ptr: &[u32], row_word_indices: &[u32], row_masks: &[u64], structural_nnz: usize, column_nrows: usize, column_ncols: usize, column_word_ptr: &[u32], column_word_indices: &[u32], column_masks: &[u64], column_structural_nnz: usize) -> Answer {
    // SAFETY: each pointer goes with the count of its own list.
    unsafe { crate::raw::hybit_dual_topology_validate(nrows, ncols, row_word_ptr.as_ptr(), row_word_ptr.len(), row_word_indices.as_ptr(), row_word_indices.len(), row_masks.as_ptr(), row_masks.len(), structural_nnz, column_nrows, column_ncols, column_word_ptr.as_ptr(), column_word_ptr.len(), column_word_indices.as_ptr(), column_word_indices.len(), column_masks.as_ptr(), column_masks.len(), column_structural_nnz) }
}

/// Counts and bytes of a topology. Refuses 1, 9.
pub fn hybit_dual_topology_stats(nrows: usize, ncols: usize, row_word_ptr: &[u32], row_word_indices: &[u32], row_masks: &[u64], structural_nnz: usize, column_nrows: usize, column_ncols: usize, column_word_ptr: &[u32], column_word_indices: &[u32], column_masks: &[u64], column_structural_nnz: usize) -> DualStatsAnswer {
    // SAFETY: each pointer goes with the count of its own list.
    unsafe { crate::raw::hybit_dual_topology_stats(nrows, ncols, row_word_ptr.as_ptr(), row_word_ptr.len(), row_word_indices.as_ptr(), row_word_indices.len(), row_masks.as_ptr(), row_masks.len(), structural_nnz, column_nrows, column_ncols, column_word_ptr.as_ptr(), column_word_ptr.len(), column_word_indices.as_ptr(), column_word_indices.len(), column_masks.as_ptr(), column_masks.len(), column_structural_nnz) }
}

/// value: how many words a row stores. Refuses 1, 9, then 13 for the number.
pub fn hybit_row_words(nrows: usize, ncols: usize, row_word_ptr: &[u32], row_word_indices: &[u32], row_masks: &[u64], structural_nnz: usize, column_nrows: usize, column_ncols: usize, column_word_ptr: &[u32], column_word_indices: &[u32], column_masks: &[u64], column_structural_nnz: usize, columns: bool, number: u64) -> Answer {
    // SAFETY: each pointer goes with the count of its own list.
    unsafe { crate::raw::hybit_row_words(nrows, ncols, row_word_ptr.as_ptr(), row_word_ptr.len(), row_word_indices.as_ptr(), row_word_indices.len(), row_masks.as_ptr(), row_masks.len(), structural_nnz, column_nrows, column_ncols, column_word_ptr.as_ptr(), column_word_ptr.len(), column_word_indices.as_ptr(), column_word_indices.len(), column_masks.as_ptr(), column_masks.len(), column_structural_nnz, columns, number) }
}

/// value: how many columns a row has. Refuses as row_words.
pub fn hybit_row_popcount(nrows: usize, ncols: usize, row_word_ptr: &[u32], row_word_indices: &[u32], row_masks: &[u64], structural_nnz: usize, column_nrows: usize, column_ncols: usize, column_word_ptr: &[u32], column_word_indices: &[u32], column_masks: &[u64], column_structural_nnz: usize, columns: bool, number: u64) -> Answer {
    // SAFETY: each pointer goes with the count of its own list.
    unsafe { crate::raw::hybit_row_popcount(nrows, ncols, row_word_ptr.as_ptr(), row_word_ptr.len(), row_word_indices.as_ptr(), row_word_indices.len(), row_masks.as_ptr(), row_masks.len(), structural_nnz, column_nrows, column_ncols, column_word_ptr.as_ptr(), column_word_ptr.len(), column_word_indices.as_ptr(), column_word_indices.len(), column_masks.as_ptr(), column_masks.len(), column_structural_nnz, columns, number) }
}

/// value: 1 if the row has the column, else 0; past the last column 0. Refuses as row_words.
pub fn hybit_row_contains(nrows: usize, ncols: usize, row_word_ptr: &[u32], row_word_indices: &[u32], row_masks: &[u64], structural_nnz: usize, column_nrows: usize, column_ncols: usize, column_word_ptr: &[u32], column_word_indices: &[u32], column_masks: &[u64], column_structural_nnz: usize, columns: bool, number: u64, col: u64) -> Answer {
    // SAFETY: each pointer goes with the count of its own list.
    unsafe { crate::raw::hybit_row_contains(nrows, ncols, row_word_ptr.as_ptr(), row_word_ptr.len(), row_word_indices.as_ptr(), row_word_indices.len(), row_masks.as_ptr(), row_masks.len(), structural_nnz, column_nrows, column_ncols, column_word_ptr.as_ptr(), column_word_ptr.len(), column_word_indices.as_ptr(), column_word_indices.len(), column_masks.as_ptr(), column_masks.len(), column_structural_nnz, columns, number, col) }
}

/// value: how many of the row's columns stand below `col`. Refuses as row_words, then 13 for a column past the end.
pub fn hybit_row_rank(nrows: usize, ncols: usize, row_word_ptr: &[u32], row_word_indices: &[u32], row_masks: &[u64], structural_nnz: usize, column_nrows: usize, column_ncols: usize, column_word_ptr: &[u32], column_word_indices: &[u32], column_masks: &[u64], column_structural_nnz: usize, columns: bool, number: u64, col: u64) -> Answer {
    // SAFETY: each pointer goes with the count of its own list.
    unsafe { crate::raw::hybit_row_rank(nrows, ncols, row_word_ptr.as_ptr(), row_word_ptr.len(), row_word_indices.as_ptr(), row_word_indices.len(), row_masks.as_ptr(), row_masks.len(), structural_nnz, column_nrows, column_ncols, column_word_ptr.as_ptr(), column_word_ptr.len(), column_word_indices.as_ptr(), column_word_indices.len(), column_masks.as_ptr(), column_masks.len(), column_structural_nnz, columns, number, col) }
}

/// value: the row's column number `ordinal`, counted from 0; or none. Refuses as row_words.
pub fn hybit_row_select(nrows: usize, ncols: usize, row_word_ptr: &[u32], row_word_indices: &[u32], row_masks: &[u64], structural_nnz: usize, column_nrows: usize, column_ncols: usize, column_word_ptr: &[u32], column_word_indices: &[u32], column_masks: &[u64], column_structural_nnz: usize, columns: bool, number: u64, ordinal: u64) -> Answer {
    // SAFETY: each pointer goes with the count of its own list.
    unsafe { crate::raw::hybit_row_select(nrows, ncols, row_word_ptr.as_ptr(), row_word_ptr.len(), row_word_indices.as_ptr(), row_word_indices.len(), row_masks.as_ptr(), row_masks.len(), structural_nnz, column_nrows, column_ncols, column_word_ptr.as_ptr(), column_word_ptr.len(), column_word_indices.as_ptr(), column_word_indices.len(), column_masks.as_ptr(), column_masks.len(), column_structural_nnz, columns, number, ordinal) }
}

/// first and second: number and bits of the row's word k; or none. Refuses as row_words.
pub fn hybit_row_word(nrows: usize, ncols: usize, row_word_ptr: &[u32], row_word_indices: &[u32], row_masks: &[u64], structural_nnz: usize, column_nrows: usize, column_ncols: usize, column_word_ptr: &[u32], column_word_indices: &[u32], column_masks: &[u64], column_structural_nnz: usize, columns: bool, number: u64, k: u64) -> PairAnswer {
    // SAFETY: each pointer goes with the count of its own list.
    unsafe { crate::raw::hybit_row_word(nrows, ncols, row_word_ptr.as_ptr(), row_word_ptr.len(), row_word_indices.as_ptr(), row_word_indices.len(), row_masks.as_ptr(), row_masks.len(), structural_nnz, column_nrows, column_ncols, column_word_ptr.as_ptr(), column_word_ptr.len(), column_word_indices.as_ptr(), column_word_indices.len(), column_masks.as_ptr(), column_masks.len(), column_structural_nnz, columns, number, k) }
}

/// Region and frontier after `hops` hops, each node a block. Three masks of the side: region, frontier, and scratch, zero afterwards. Refuses as
/// the topology, 10, 11, 12 for the seeds, 25.
pub fn hybit_grow_undirected_region(nrows: usize, ncols: usize, row_word_ptr: &[u32], row_word_indices: &[u32], row_masks: &[u64], structural_nnz: usize, column_nrows: usize, column_ncols: usize, column_word_ptr: &[u32], column_word_indices: &[u32], column_masks: &[u64], column_structural_nnz: usize, len: usize, words: &[u64], hops: u64, region: &mut [u64], frontier: &mut [u64], scratch: &mut [u64]) -> GrowthAnswer {
    // SAFETY: each pointer goes with the count of its own list.
    unsafe { crate::raw::hybit_grow_undirected_region(nrows, ncols, row_word_ptr.as_ptr(), row_word_ptr.len(), row_word_indices.as_ptr(), row_word_indices.len(), row_masks.as_ptr(), row_masks.len(), structural_nnz, column_nrows, column_ncols, column_word_ptr.as_ptr(), column_word_ptr.len(), column_word_indices.as_ptr(), column_word_indices.len(), column_masks.as_ptr(), column_masks.len(), column_structural_nnz, len, words.as_ptr(), words.len(), hops, region.as_mut_ptr(), region.len(), frontier.as_mut_ptr(), frontier.len(), scratch.as_mut_ptr(), scratch.len()) }
}

/// The same by whole blocks of the layout. Refuses as the topology, the layout, 18, 11, 12 for the seeds, 25.
pub fn hybit_grow_field_aware_region(nrows: usize, ncols: usize, row_word_ptr: &[u32], row_word_indices: &[u32], row_masks: &[u64], structural_nnz: usize, column_nrows: usize, column_ncols: usize, column_word_ptr: &[u32], column_word_indices: &[u32], column_masks: &[u64], column_structural_nnz: usize, entity_kinds: &[u8], entity_ids: &[u64], field_ids: &[u32], components: &[u32], offsets: &[u64], len: usize, words: &[u64], hops: u64, region: &mut [u64], frontier: &mut [u64], scratch: &mut [u64]) -> FieldGrowthAnswer {
    // SAFETY: each pointer goes with the count of its own list.
    unsafe { crate::raw::hybit_grow_field_aware_region(nrows, ncols, row_word_ptr.as_ptr(), row_word_ptr.len(), row_word_indices.as_ptr(), row_word_indices.len(), row_masks.as_ptr(), row_masks.len(), structural_nnz, column_nrows, column_ncols, column_word_ptr.as_ptr(), column_word_ptr.len(), column_word_indices.as_ptr(), column_word_indices.len(), column_masks.as_ptr(), column_masks.len(), column_structural_nnz, entity_kinds.as_ptr(), entity_kinds.len(), entity_ids.as_ptr(), entity_ids.len(), field_ids.as_ptr(), field_ids.len(), components.as_ptr(), components.len(), offsets.as_ptr(), offsets.len(), len, words.as_ptr(), words.len(), hops, region.as_mut_ptr(), region.len(), frontier.as_mut_ptr(), frontier.len(), scratch.as_mut_ptr(), scratch.len()) }
}

/// The whole blocks of the nodes in `out`, a mask of the total; value: the total. Refuses as the layout, 11, 12 for the mask, 25.
pub fn hybit_close_to_field_blocks(entity_kinds: &[u8], entity_ids: &[u64], field_ids: &[u32], components: &[u32], offsets: &[u64], len: usize, words: &[u64], out: &mut [u64]) -> Answer {
    // SAFETY: each pointer goes with the count of its own list.
    unsafe { crate::raw::hybit_close_to_field_blocks(entity_kinds.as_ptr(), entity_kinds.len(), entity_ids.as_ptr(), entity_ids.len(), field_ids.as_ptr(), field_ids.len(), components.as_ptr(), components.len(), offsets.as_ptr(), offsets.len(), len, words.as_ptr(), words.len(), out.as_mut_ptr(), out.len()) }
}

/// The owner of each block in `out`, which needs one place for each; value: how many. Refuses as the layout, 11, 19, by block 20, 21, then 25.
pub fn hybit_field_block_owners(entity_kinds: &[u8], entity_ids: &[u64], field_ids: &[u32], components: &[u32], offsets: &[u64], dof_owners: &[u32], ranks: u32, out: &mut [u32]) -> Answer {
    // SAFETY: each pointer goes with the count of its own list.
    unsafe { crate::raw::hybit_field_block_owners(entity_kinds.as_ptr(), entity_kinds.len(), entity_ids.as_ptr(), entity_ids.len(), field_ids.as_ptr(), field_ids.len(), components.as_ptr(), components.len(), offsets.as_ptr(), offsets.len(), dof_owners.as_ptr(), dof_owners.len(), ranks, out.as_mut_ptr(), out.len()) }
}

/// How many regions hold each node, in `counts`, which needs one place for each node. `words`: the masks of the regions one after the other.
/// Refuses 1, 11, 12, 25.
pub fn hybit_region_multiplicity(node_count: usize, region_count: usize, words: &[u64], counts: &mut [u32]) -> MultiplicityAnswer {
    // SAFETY: each pointer goes with the count of its own list.
    unsafe { crate::raw::hybit_region_multiplicity(node_count, region_count, words.as_ptr(), words.len(), counts.as_mut_ptr(), counts.len()) }
}

/// value: the region's weight at a node, 65,536 divided by the node's multiplicity, rounded down; 0 where it does not hold it. Refuses 1, 11, 12, 13.
pub fn hybit_weight(node_count: usize, region_count: usize, words: &[u64], region: u64, node: u64) -> Answer {
    // SAFETY: each pointer goes with the count of its own list.
    unsafe { crate::raw::hybit_weight(node_count, region_count, words.as_ptr(), words.len(), region, node) }
}

/// The local system's pattern: members, members + 1 row pointers, and one column for each pair inside. Refuses as the topology, 10, 11, 12 for
/// the region, 25.
pub fn hybit_extract_local_submatrix_pattern(nrows: usize, ncols: usize, row_word_ptr: &[u32], row_word_indices: &[u32], row_masks: &[u64], structural_nnz: usize, column_nrows: usize, column_ncols: usize, column_word_ptr: &[u32], column_word_indices: &[u32], column_masks: &[u64], column_structural_nnz: usize, len: usize, words: &[u64], global_nodes: &mut [u32], row_ptr: &mut [u32], col_idx: &mut [u32]) -> PatternAnswer {
    // SAFETY: each pointer goes with the count of its own list.
    unsafe { crate::raw::hybit_extract_local_submatrix_pattern(nrows, ncols, row_word_ptr.as_ptr(), row_word_ptr.len(), row_word_indices.as_ptr(), row_word_indices.len(), row_masks.as_ptr(), row_masks.len(), structural_nnz, column_nrows, column_ncols, column_word_ptr.as_ptr(), column_word_ptr.len(), column_word_indices.as_ptr(), column_word_indices.len(), column_masks.as_ptr(), column_masks.len(), column_structural_nnz, len, words.as_ptr(), words.len(), global_nodes.as_mut_ptr(), global_nodes.len(), row_ptr.as_mut_ptr(), row_ptr.len(), col_idx.as_mut_ptr(), col_idx.len()) }
}

/// Pattern and plan: the pattern's lists, pairs + 1 source pointers, and one source for each entry inside. Refuses as the matrix, the topology, 22,
/// 10, 11, 12 for the region, by local row 23, 24, then 25.
pub fn hybit_prepare_local_numeric_plan(nrows: usize, ncols: usize, row_word_ptr: &[u32], row_word_indices: &[u32], row_masks: &[u64], structural_nnz: usize, column_nrows: usize, column_ncols: usize, column_word_ptr: &[u32], column_word_indices: &[u32], column_masks: &[u64], column_structural_nnz: usize, matrix_nrows: usize, matrix_ncols: usize, row_ptr: &[u32], col_idx: &[u32], values: &[f64], len: usize, words: &[u64], global_nodes: &mut [u32], local_row_ptr: &mut [u32], local_col_idx: &mut [u32], source_ptr: &mut [u32], source_indices: &mut [u32]) -> PlanAnswer {
    // SAFETY: each pointer goes with the count of its own list.
    unsafe { crate::raw::hybit_prepare_local_numeric_plan(nrows, ncols, row_word_ptr.as_ptr(), row_word_ptr.len(), row_word_indices.as_ptr(), row_word_indices.len(), row_masks.as_ptr(), row_masks.len(), structural_nnz, column_nrows, column_ncols, column_word_ptr.as_ptr(), column_word_ptr.len(), column_word_indices.as_ptr(), column_word_indices.len(), column_masks.as_ptr(), column_masks.len(), column_structural_nnz, matrix_nrows, matrix_ncols, row_ptr.as_ptr(), row_ptr.len(), col_idx.as_ptr(), col_idx.len(), values.as_ptr(), values.len(), len, words.as_ptr(), words.len(), global_nodes.as_mut_ptr(), global_nodes.len(), local_row_ptr.as_mut_ptr(), local_row_ptr.len(), local_col_idx.as_mut_ptr(), local_col_idx.len(), source_ptr.as_mut_ptr(), source_ptr.len(), source_indices.as_mut_ptr(), source_indices.len()) }
}

/// One value for each pair of a plan in `out`; value: how many. `source_value_len`: the number of values that the plan was made for. Refuses 1,
/// 26, 11, 8, 25.
pub fn hybit_gather_values(source_ptr: &[u32], source_indices: &[u32], source_value_len: usize, values: &[f64], out: &mut [f64]) -> Answer {
    // SAFETY: each pointer goes with the count of its own list.
    unsafe { crate::raw::hybit_gather_values(source_ptr.as_ptr(), source_ptr.len(), source_indices.as_ptr(), source_indices.len(), source_value_len, values.as_ptr(), values.len(), out.as_mut_ptr(), out.len()) }
}

/// Topology, region, pattern and plan of a matrix, a layout and seeds in one call. Each side's pointers and words, `starts` and `order` as in
/// building; three masks; side members, side + 1 row pointers, as many columns and sources as entries, entries + 1 source pointers, zero past
/// the answer. Refuses as the matrix, the layout, 18, 11, 12 for the seeds, 25.
pub fn hybit_prepare_region(nrows: usize, ncols: usize, row_ptr: &[u32], col_idx: &[u32], values: &[f64], entity_kinds: &[u8], entity_ids: &[u64], field_ids: &[u32], components: &[u32], offsets: &[u64], len: usize, words: &[u64], hops: u64, row_word_ptr: &mut [u32], row_word_indices: &mut [u32], row_masks: &mut [u64], column_word_ptr: &mut [u32], column_word_indices: &mut [u32], column_masks: &mut [u64], starts: &mut [u32], order: &mut [u32], region: &mut [u64], frontier: &mut [u64], scratch: &mut [u64], global_nodes: &mut [u32], local_row_ptr: &mut [u32], local_col_idx: &mut [u32], source_ptr: &mut [u32], source_indices: &mut [u32]) -> PreparedAnswer {
    // SAFETY: each pointer goes with the count of its own list.
    unsafe { crate::raw::hybit_prepare_region(nrows, ncols, row_ptr.as_ptr(), row_ptr.len(), col_idx.as_ptr(), col_idx.len(), values.as_ptr(), values.len(), entity_kinds.as_ptr(), entity_kinds.len(), entity_ids.as_ptr(), entity_ids.len(), field_ids.as_ptr(), field_ids.len(), components.as_ptr(), components.len(), offsets.as_ptr(), offsets.len(), len, words.as_ptr(), words.len(), hops, row_word_ptr.as_mut_ptr(), row_word_ptr.len(), row_word_indices.as_mut_ptr(), row_word_indices.len(), row_masks.as_mut_ptr(), row_masks.len(), column_word_ptr.as_mut_ptr(), column_word_ptr.len(), column_word_indices.as_mut_ptr(), column_word_indices.len(), column_masks.as_mut_ptr(), column_masks.len(), starts.as_mut_ptr(), starts.len(), order.as_mut_ptr(), order.len(), region.as_mut_ptr(), region.len(), frontier.as_mut_ptr(), frontier.len(), scratch.as_mut_ptr(), scratch.len(), global_nodes.as_mut_ptr(), global_nodes.len(), local_row_ptr.as_mut_ptr(), local_row_ptr.len(), local_col_idx.as_mut_ptr(), local_col_idx.len(), source_ptr.as_mut_ptr(), source_ptr.len(), source_indices.as_mut_ptr(), source_indices.len()) }
}

/// As field_block_owners, on a matrix and its layout. Refuses as the matrix, the layout, 18, then as field_block_owners.
pub fn hybit_validate_block_owners(nrows: usize, ncols: usize, row_ptr: &[u32], col_idx: &[u32], values: &[f64], entity_kinds: &[u8], entity_ids: &[u64], field_ids: &[u32], components: &[u32], offsets: &[u64], dof_owners: &[u32], ranks: u32, out: &mut [u32]) -> Answer {
    // SAFETY: each pointer goes with the count of its own list.
    unsafe { crate::raw::hybit_validate_block_owners(nrows, ncols, row_ptr.as_ptr(), row_ptr.len(), col_idx.as_ptr(), col_idx.len(), values.as_ptr(), values.len(), entity_kinds.as_ptr(), entity_kinds.len(), entity_ids.as_ptr(), entity_ids.len(), field_ids.as_ptr(), field_ids.len(), components.as_ptr(), components.len(), offsets.as_ptr(), offsets.len(), dof_owners.as_ptr(), dof_owners.len(), ranks, out.as_mut_ptr(), out.len()) }
}

/// A job's text in, the answer's text out, a refused job's too; value: its length in bytes. Refuses 25 alone.
pub fn hybit_peak_job(input: &[u8], out: &mut [u8]) -> Answer {
    // SAFETY: each pointer goes with the count of its own list.
    unsafe { crate::raw::hybit_peak_job(input.as_ptr(), input.len(), out.as_mut_ptr(), out.len()) }
}
