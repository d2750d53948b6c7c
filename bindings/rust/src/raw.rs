// The exported functions as C sees them, and the flat records that they answer with. Made by tools/exports from
// crates/hybit_matrix/src: do not edit.

// number: the refusal's number, or 0. present: there is an answer (false after a refusal, and where the answer is none).
// value: the count, the bit, or 1 for yes and 0 for no.
#[repr(C)]
#[derive(Clone, Copy)]
pub struct Answer {
    pub number: u32,
    pub present: bool,
    pub expected: u64,
    pub actual: u64,
    pub value: u64,
}

// An answer of two numbers, named at each call. The rest is as in `Answer`.
#[repr(C)]
#[derive(Clone, Copy)]
pub struct PairAnswer {
    pub number: u32,
    pub present: bool,
    pub expected: u64,
    pub actual: u64,
    pub first: u64,
    pub second: u64,
}

// Counts, bytes and the three ratios; all 0 on a refusal.
#[repr(C)]
#[derive(Clone, Copy)]
pub struct TopologyStatsAnswer {
    pub number: u32,
    pub present: bool,
    pub expected: u64,
    pub actual: u64,
    pub nrows: u64,
    pub ncols: u64,
    pub structural_nnz: u64,
    pub nonempty_words: u64,
    pub metadata_bytes: u64,
    pub average_word_nnz: f64,
    pub word_fill_ratio: f64,
    pub metadata_bytes_per_nnz: f64,
}

// Counts, bytes and the ratio; all 0 on a refusal.
#[repr(C)]
#[derive(Clone, Copy)]
pub struct DualStatsAnswer {
    pub number: u32,
    pub present: bool,
    pub expected: u64,
    pub actual: u64,
    pub nrows: u64,
    pub ncols: u64,
    pub structural_nnz: u64,
    pub row_metadata_bytes: u64,
    pub column_metadata_bytes: u64,
    pub total_metadata_bytes: u64,
    pub metadata_bytes_per_nnz: f64,
}

// How many words each side has, and how many pairs both have.
#[repr(C)]
#[derive(Clone, Copy)]
pub struct BuildAnswer {
    pub number: u32,
    pub present: bool,
    pub expected: u64,
    pub actual: u64,
    pub row_words: u64,
    pub column_words: u64,
    pub pairs: u64,
}

// The statistics of a growth, and the two figures that follow from them; all 0 on a refusal.
#[repr(C)]
#[derive(Clone, Copy)]
pub struct GrowthAnswer {
    pub number: u32,
    pub present: bool,
    pub expected: u64,
    pub actual: u64,
    pub hops_requested: u64,
    pub hops_completed: u64,
    pub seed_nodes: u64,
    pub region_nodes: u64,
    pub frontier_nodes_visited: u64,
    pub row_words_visited: u64,
    pub column_words_visited: u64,
    pub candidate_neighbor_bits: u64,
    pub topology_words_visited: u64,
    pub new_nodes: u64,
}

// The statistics of a field growth; all 0 on a refusal.
#[repr(C)]
#[derive(Clone, Copy)]
pub struct FieldGrowthAnswer {
    pub number: u32,
    pub present: bool,
    pub expected: u64,
    pub actual: u64,
    pub hops_requested: u64,
    pub hops_completed: u64,
    pub seed_dofs: u64,
    pub block_closed_seed_dofs: u64,
    pub region_dofs: u64,
    pub region_blocks: u64,
    pub frontier_dofs_visited: u64,
    pub row_words_visited: u64,
    pub column_words_visited: u64,
    pub candidate_neighbor_bits: u64,
}

// The statistics of the regions; all 0 on a refusal.
#[repr(C)]
#[derive(Clone, Copy)]
pub struct MultiplicityAnswer {
    pub number: u32,
    pub present: bool,
    pub expected: u64,
    pub actual: u64,
    pub region_count: u64,
    pub node_count: u64,
    pub total_memberships: u64,
    pub covered_nodes: u64,
    pub overlap_nodes: u64,
    pub max_multiplicity: u64,
    pub pair_overlap_memberships: u64,
    pub extra_memberships: u64,
    pub average_multiplicity_on_covered: f64,
    pub overlap_fraction_on_covered: f64,
}

// The statistics of a pattern, and the two ratios that follow from them; all 0 on a refusal.
#[repr(C)]
#[derive(Clone, Copy)]
pub struct PatternAnswer {
    pub number: u32,
    pub present: bool,
    pub expected: u64,
    pub actual: u64,
    pub global_nodes: u64,
    pub local_nodes: u64,
    pub local_nnz: u64,
    pub topology_words_visited: u64,
    pub candidate_neighbor_bits: u64,
    pub kept_neighbor_bits: u64,
    pub mapping_scratch_bytes: u64,
    pub pattern_bytes: u64,
    pub structural_pruning_ratio: f64,
    pub average_local_row_nnz: f64,
}

// The statistics of a plan; all 0 on a refusal.
#[repr(C)]
#[derive(Clone, Copy)]
pub struct PlanAnswer {
    pub number: u32,
    pub present: bool,
    pub expected: u64,
    pub actual: u64,
    pub local_nodes: u64,
    pub local_nnz: u64,
    pub source_terms: u64,
    pub duplicate_source_terms: u64,
    pub direct_source_map: bool,
    pub plan_bytes: u64,
}

// The counts of the topology, then the statistics of topology, growth, pattern and plan; a name that two of them have is told apart by a prefix. All
// 0 and false on a refusal.
#[repr(C)]
#[derive(Clone, Copy)]
pub struct PreparedAnswer {
    pub number: u32,
    pub present: bool,
    pub expected: u64,
    pub actual: u64,
    pub row_words: u64,
    pub column_words: u64,
    pub pairs: u64,
    pub topology_nrows: u32,
    pub topology_ncols: u32,
    pub structural_nnz: u32,
    pub row_metadata_bytes: u32,
    pub column_metadata_bytes: u32,
    pub hops_requested: u64,
    pub hops_completed: u64,
    pub seed_dofs: u64,
    pub block_closed_seed_dofs: u64,
    pub region_dofs: u64,
    pub region_blocks: u64,
    pub frontier_dofs_visited: u64,
    pub row_words_visited: u64,
    pub column_words_visited: u64,
    pub candidate_neighbor_bits: u64,
    pub global_nodes: u32,
    pub local_nodes: u32,
    pub local_nnz: u32,
    pub topology_words_visited: u32,
    pub pattern_candidate_bits: u32,
    pub kept_neighbor_bits: u32,
    pub mapping_scratch_bytes: u32,
    pub pattern_bytes: u32,
    pub plan_local_nodes: u32,
    pub plan_local_nnz: u32,
    pub source_terms: u32,
    pub duplicate_source_terms: u32,
    pub direct_source_map: bool,
    pub plan_bytes: u32,
}

unsafe extern "C" {
    // The width of a word, 64.
    pub fn hybit_word_bits() -> usize;
    // The word's number in its row.
    pub fn hybit_word_word_index(
        word_index: u32,
        mask: u64,
    ) -> u32;
    // The column of the word's bit 0: 64 times its number.
    pub fn hybit_word_base_col(
        word_index: u32,
        mask: u64,
    ) -> usize;
    // The word's bits.
    pub fn hybit_word_mask(
        word_index: u32,
        mask: u64,
    ) -> u64;
    // How many bits are set.
    pub fn hybit_word_popcount(
        word_index: u32,
        mask: u64,
    ) -> usize;
    // Whether bit `offset` is set; past 63: no.
    pub fn hybit_word_contains_offset(
        word_index: u32,
        mask: u64,
        offset: usize,
    ) -> bool;
    // value: how many set bits stand below `offset`. Refuses 13 past 64.
    pub fn hybit_word_rank(
        word_index: u32,
        mask: u64,
        offset: usize,
    ) -> Answer;
    // value: the set bit number `ordinal`, counted from 0; or none.
    pub fn hybit_word_select(
        word_index: u32,
        mask: u64,
        ordinal: usize,
    ) -> Answer;
    // Checks a matrix: 1 to 8.
    pub fn hybit_csr32_validate(
        nrows: usize,
        ncols: usize,
        row_ptr: *const u32,
        row_ptr_count: usize,
        col_idx: *const u32,
        col_idx_count: usize,
        values: *const f64,
        values_count: usize,
    ) -> Answer;
    // Checks a mask: 1, 11, 12. A mask of `len` nodes has exactly `len` / 64 words, rounded up.
    pub fn hybit_mask_check(
        len: usize,
        words: *const u64,
        words_count: usize,
    ) -> Answer;
    // The empty mask in `out`, which needs its words. Refuses 1, 25.
    pub fn hybit_mask_new(
        len: usize,
        out: *mut u64,
        out_count: usize,
    ) -> Answer;
    // The mask of the indices in `out`, which needs its words. Refuses 1, 13, 25.
    pub fn hybit_mask_from_indices(
        len: usize,
        indices: *const u64,
        indices_count: usize,
        out: *mut u64,
        out_count: usize,
    ) -> Answer;
    // value: 1 if no node is set, else 0. Refuses as the check.
    pub fn hybit_mask_is_empty(
        len: usize,
        words: *const u64,
        words_count: usize,
    ) -> Answer;
    // value: how many nodes are set. Refuses as the check.
    pub fn hybit_mask_count_ones(
        len: usize,
        words: *const u64,
        words_count: usize,
    ) -> Answer;
    // Sets or clears one node. Refuses as the check, then 13.
    pub fn hybit_mask_set(
        len: usize,
        words: *mut u64,
        words_count: usize,
        index: u64,
        value: bool,
    ) -> Answer;
    // value: 1 if the node is set, else 0; past the length 0. Refuses as the check.
    pub fn hybit_mask_contains(
        len: usize,
        words: *const u64,
        words_count: usize,
        index: u64,
    ) -> Answer;
    // Joins the other mask to the first. Refuses as the check, then for the other 11 (its length, its words), 12.
    pub fn hybit_mask_union_assign(
        len: usize,
        words: *mut u64,
        words_count: usize,
        other_len: usize,
        other: *const u64,
        other_count: usize,
    ) -> Answer;
    // Keeps the nodes that both have. Refuses as the union.
    pub fn hybit_mask_intersect_assign(
        len: usize,
        words: *mut u64,
        words_count: usize,
        other_len: usize,
        other: *const u64,
        other_count: usize,
    ) -> Answer;
    // Takes the other mask's nodes away. Refuses as the union.
    pub fn hybit_mask_and_not_assign(
        len: usize,
        words: *mut u64,
        words_count: usize,
        other_len: usize,
        other: *const u64,
        other_count: usize,
    ) -> Answer;
    // value: 1 if both have a node, else 0. Refuses as the union.
    pub fn hybit_mask_intersects(
        len: usize,
        words: *const u64,
        words_count: usize,
        other_len: usize,
        other: *const u64,
        other_count: usize,
    ) -> Answer;
    // The nodes in rising order in `out`, which needs one place for each; value: how many. Refuses as the check, then 25.
    pub fn hybit_mask_indices(
        len: usize,
        words: *const u64,
        words_count: usize,
        out: *mut u64,
        out_count: usize,
    ) -> Answer;
    // Sets the bits in one word; past the last word nothing changes, bits past the length are dropped. Refuses as the check.
    pub fn hybit_mask_or_word(
        len: usize,
        words: *mut u64,
        words_count: usize,
        word_index: u64,
        bits: u64,
    ) -> Answer;
    // value: the kind's number, which is the code. Refuses 17.
    pub fn hybit_kind_of(
        code: u32,
    ) -> Answer;
    // Running totals of the components in `out`, which needs blocks + 1; value: the total. Refuses 14, 11, by block 17, 15, 16, 1, then 25.
    pub fn hybit_layout_new(
        entity_kinds: *const u8,
        entity_kinds_count: usize,
        entity_ids: *const u64,
        entity_ids_count: usize,
        field_ids: *const u32,
        field_ids_count: usize,
        components: *const u32,
        components_count: usize,
        out: *mut u64,
        out_count: usize,
    ) -> Answer;
    // Checks a layout: as new, then 26.
    pub fn hybit_layout_check(
        entity_kinds: *const u8,
        entity_kinds_count: usize,
        entity_ids: *const u64,
        entity_ids_count: usize,
        field_ids: *const u32,
        field_ids_count: usize,
        components: *const u32,
        components_count: usize,
        offsets: *const u64,
        offsets_count: usize,
    ) -> Answer;
    // value: the total. Refuses as the check.
    pub fn hybit_layout_total_dofs(
        entity_kinds: *const u8,
        entity_kinds_count: usize,
        entity_ids: *const u64,
        entity_ids_count: usize,
        field_ids: *const u32,
        field_ids_count: usize,
        components: *const u32,
        components_count: usize,
        offsets: *const u64,
        offsets_count: usize,
    ) -> Answer;
    // first and second: start and end of a block; past the last block none. Refuses as the check.
    pub fn hybit_layout_block_range(
        entity_kinds: *const u8,
        entity_kinds_count: usize,
        entity_ids: *const u64,
        entity_ids_count: usize,
        field_ids: *const u32,
        field_ids_count: usize,
        components: *const u32,
        components_count: usize,
        offsets: *const u64,
        offsets_count: usize,
        index: u64,
    ) -> PairAnswer;
    // first and second: block and component of a node; past the last node none. Refuses as the check.
    pub fn hybit_layout_locate(
        entity_kinds: *const u8,
        entity_kinds_count: usize,
        entity_ids: *const u64,
        entity_ids_count: usize,
        field_ids: *const u32,
        field_ids_count: usize,
        components: *const u32,
        components_count: usize,
        offsets: *const u64,
        offsets_count: usize,
        dof: u64,
    ) -> PairAnswer;
    // Whether the total is both sides. Refuses as the check, then 18.
    pub fn hybit_layout_validate_square_matrix_size(
        entity_kinds: *const u8,
        entity_kinds_count: usize,
        entity_ids: *const u64,
        entity_ids_count: usize,
        field_ids: *const u32,
        field_ids_count: usize,
        components: *const u32,
        components_count: usize,
        offsets: *const u64,
        offsets_count: usize,
        nrows: usize,
        ncols: usize,
    ) -> Answer;
    // The mask of a field's nodes in `out`, which needs the words of a mask of the total; value: the total. Refuses as the check, then 25.
    pub fn hybit_layout_field_mask(
        entity_kinds: *const u8,
        entity_kinds_count: usize,
        entity_ids: *const u64,
        entity_ids_count: usize,
        field_ids: *const u32,
        field_ids_count: usize,
        components: *const u32,
        components_count: usize,
        offsets: *const u64,
        offsets_count: usize,
        field_id: u32,
        out: *mut u64,
        out_count: usize,
    ) -> Answer;
    // Checks one side: 1, 9.
    pub fn hybit_topology_validate(
        nrows: usize,
        ncols: usize,
        row_word_ptr: *const u32,
        row_word_ptr_count: usize,
        word_indices: *const u32,
        word_indices_count: usize,
        masks: *const u64,
        masks_count: usize,
        structural_nnz: usize,
    ) -> Answer;
    // Counts, bytes and ratios of one side. Refuses 1, 9.
    pub fn hybit_topology_stats(
        nrows: usize,
        ncols: usize,
        row_word_ptr: *const u32,
        row_word_ptr_count: usize,
        word_indices: *const u32,
        word_indices_count: usize,
        masks: *const u64,
        masks_count: usize,
        structural_nnz: usize,
    ) -> TopologyStatsAnswer;
    // One side of a matrix's pairs: the lists need nrows + 1 pointers and as many words as entries, zero past its own; first and second: words and
    // pairs. Refuses 1 to 8, 25.
    pub fn hybit_topology_from_csr32(
        nrows: usize,
        ncols: usize,
        row_ptr: *const u32,
        row_ptr_count: usize,
        col_idx: *const u32,
        col_idx_count: usize,
        values: *const f64,
        values_count: usize,
        row_word_ptr: *mut u32,
        row_word_ptr_count: usize,
        word_indices: *mut u32,
        word_indices_count: usize,
        masks: *mut u64,
        masks_count: usize,
    ) -> PairAnswer;
    // The pairs that both sides have: the lists need nrows + 1 pointers and as many words as both together, zero past its own; first and second:
    // words and pairs. Refuses 1, 9 for each, 22, 25.
    pub fn hybit_topology_intersection(
        nrows: usize,
        ncols: usize,
        ptr_a: *const u32,
        ptr_a_count: usize,
        words_a: *const u32,
        words_a_count: usize,
        masks_a: *const u64,
        masks_a_count: usize,
        pairs_a: usize,
        nrows_b: usize,
        ncols_b: usize,
        ptr_b: *const u32,
        ptr_b_count: usize,
        words_b: *const u32,
        words_b_count: usize,
        masks_b: *const u64,
        masks_b_count: usize,
        pairs_b: usize,
        row_word_ptr: *mut u32,
        row_word_ptr_count: usize,
        word_indices: *mut u32,
        word_indices_count: usize,
        masks: *mut u64,
        masks_count: usize,
    ) -> PairAnswer;
    // The pairs of either side; all else as the intersection.
    pub fn hybit_topology_union(
        nrows: usize,
        ncols: usize,
        ptr_a: *const u32,
        ptr_a_count: usize,
        words_a: *const u32,
        words_a_count: usize,
        masks_a: *const u64,
        masks_a_count: usize,
        pairs_a: usize,
        nrows_b: usize,
        ncols_b: usize,
        ptr_b: *const u32,
        ptr_b_count: usize,
        words_b: *const u32,
        words_b_count: usize,
        masks_b: *const u64,
        masks_b_count: usize,
        pairs_b: usize,
        row_word_ptr: *mut u32,
        row_word_ptr_count: usize,
        word_indices: *mut u32,
        word_indices_count: usize,
        masks: *mut u64,
        masks_count: usize,
    ) -> PairAnswer;
    // The pairs of the first side that the second lacks; all else as the intersection.
    pub fn hybit_topology_and_not(
        nrows: usize,
        ncols: usize,
        ptr_a: *const u32,
        ptr_a_count: usize,
        words_a: *const u32,
        words_a_count: usize,
        masks_a: *const u64,
        masks_a_count: usize,
        pairs_a: usize,
        nrows_b: usize,
        ncols_b: usize,
        ptr_b: *const u32,
        ptr_b_count: usize,
        words_b: *const u32,
        words_b_count: usize,
        masks_b: *const u64,
        masks_b_count: usize,
        pairs_b: usize,
        row_word_ptr: *mut u32,
        row_word_ptr_count: usize,
        word_indices: *mut u32,
        word_indices_count: usize,
        masks: *mut u64,
        masks_count: usize,
    ) -> PairAnswer;
    // The pairs that one side alone has; all else as the intersection.
    pub fn hybit_topology_xor(
        nrows: usize,
        ncols: usize,
        ptr_a: *const u32,
        ptr_a_count: usize,
        words_a: *const u32,
        words_a_count: usize,
        masks_a: *const u64,
        masks_a_count: usize,
        pairs_a: usize,
        nrows_b: usize,
        ncols_b: usize,
        ptr_b: *const u32,
        ptr_b_count: usize,
        words_b: *const u32,
        words_b_count: usize,
        masks_b: *const u64,
        masks_b_count: usize,
        pairs_b: usize,
        row_word_ptr: *mut u32,
        row_word_ptr_count: usize,
        word_indices: *mut u32,
        word_indices_count: usize,
        masks: *mut u64,
        masks_count: usize,
    ) -> PairAnswer;
    // Both sides of a matrix's pairs: each needs its rows + 1 pointers and as many words as entries, zero past its own. `starts` (ncols + 1) and
    // `order` (one for each entry) are scratch, zero afterwards. Refuses 1 to 8, 25.
    pub fn hybit_dual_topology_from_csr32(
        nrows: usize,
        ncols: usize,
        row_ptr: *const u32,
        row_ptr_count: usize,
        col_idx: *const u32,
        col_idx_count: usize,
        values: *const f64,
        values_count: usize,
        row_word_ptr: *mut u32,
        row_word_ptr_count: usize,
        row_word_indices: *mut u32,
        row_word_indices_count: usize,
        row_masks: *mut u64,
        row_masks_count: usize,
        column_word_ptr: *mut u32,
        column_word_ptr_count: usize,
        column_word_indices: *mut u32,
        column_word_indices_count: usize,
        column_masks: *mut u64,
        column_masks_count: usize,
        starts: *mut u32,
        starts_count: usize,
        order: *mut u32,
        order_count: usize,
    ) -> BuildAnswer;
    // Checks a topology: 1 (both sides), 9 (each side, and that the columns are the transpose of the rows).
    pub fn hybit_dual_topology_validate(
        nrows: usize,
        ncols: usize,
        row_word_ptr: *const u32,
        row_word_ptr_count: usize,
        row_word_indices: *const u32,
        row_word_indices_count: usize,
        row_masks: *const u64,
        row_masks_count: usize,
        structural_nnz: usize,
        column_nrows: usize,
        column_ncols: usize,
        column_word_ptr: *const u32,
        column_word_ptr_count: usize,
        column_word_indices: *const u32,
        column_word_indices_count: usize,
        column_masks: *const u64,
        column_masks_count: usize,
        column_structural_nnz: usize,
    ) -> Answer;
    // Counts and bytes of a topology. Refuses 1, 9.
    pub fn hybit_dual_topology_stats(
        nrows: usize,
        ncols: usize,
        row_word_ptr: *const u32,
        row_word_ptr_count: usize,
        row_word_indices: *const u32,
        row_word_indices_count: usize,
        row_masks: *const u64,
        row_masks_count: usize,
        structural_nnz: usize,
        column_nrows: usize,
        column_ncols: usize,
        column_word_ptr: *const u32,
        column_word_ptr_count: usize,
        column_word_indices: *const u32,
        column_word_indices_count: usize,
        column_masks: *const u64,
        column_masks_count: usize,
        column_structural_nnz: usize,
    ) -> DualStatsAnswer;
    // value: how many words a row stores. Refuses 1, 9, then 13 for the number.
    pub fn hybit_row_words(
        nrows: usize,
        ncols: usize,
        row_word_ptr: *const u32,
        row_word_ptr_count: usize,
        row_word_indices: *const u32,
        row_word_indices_count: usize,
        row_masks: *const u64,
        row_masks_count: usize,
        structural_nnz: usize,
        column_nrows: usize,
        column_ncols: usize,
        column_word_ptr: *const u32,
        column_word_ptr_count: usize,
        column_word_indices: *const u32,
        column_word_indices_count: usize,
        column_masks: *const u64,
        column_masks_count: usize,
        column_structural_nnz: usize,
        columns: bool,
        number: u64,
    ) -> Answer;
    // value: how many columns a row has. Refuses as row_words.
    pub fn hybit_row_popcount(
        nrows: usize,
        ncols: usize,
        row_word_ptr: *const u32,
        row_word_ptr_count: usize,
        row_word_indices: *const u32,
        row_word_indices_count: usize,
        row_masks: *const u64,
        row_masks_count: usize,
        structural_nnz: usize,
        column_nrows: usize,
        column_ncols: usize,
        column_word_ptr: *const u32,
        column_word_ptr_count: usize,
        column_word_indices: *const u32,
        column_word_indices_count: usize,
        column_masks: *const u64,
        column_masks_count: usize,
        column_structural_nnz: usize,
        columns: bool,
        number: u64,
    ) -> Answer;
    // value: 1 if the row has the column, else 0; past the last column 0. Refuses as row_words.
    pub fn hybit_row_contains(
        nrows: usize,
        ncols: usize,
        row_word_ptr: *const u32,
        row_word_ptr_count: usize,
        row_word_indices: *const u32,
        row_word_indices_count: usize,
        row_masks: *const u64,
        row_masks_count: usize,
        structural_nnz: usize,
        column_nrows: usize,
        column_ncols: usize,
        column_word_ptr: *const u32,
        column_word_ptr_count: usize,
        column_word_indices: *const u32,
        column_word_indices_count: usize,
        column_masks: *const u64,
        column_masks_count: usize,
        column_structural_nnz: usize,
        columns: bool,
        number: u64,
        col: u64,
    ) -> Answer;
    // value: how many of the row's columns stand below `col`. Refuses as row_words, then 13 for a column past the end.
    pub fn hybit_row_rank(
        nrows: usize,
        ncols: usize,
        row_word_ptr: *const u32,
        row_word_ptr_count: usize,
        row_word_indices: *const u32,
        row_word_indices_count: usize,
        row_masks: *const u64,
        row_masks_count: usize,
        structural_nnz: usize,
        column_nrows: usize,
        column_ncols: usize,
        column_word_ptr: *const u32,
        column_word_ptr_count: usize,
        column_word_indices: *const u32,
        column_word_indices_count: usize,
        column_masks: *const u64,
        column_masks_count: usize,
        column_structural_nnz: usize,
        columns: bool,
        number: u64,
        col: u64,
    ) -> Answer;
    // value: the row's column number `ordinal`, counted from 0; or none. Refuses as row_words.
    pub fn hybit_row_select(
        nrows: usize,
        ncols: usize,
        row_word_ptr: *const u32,
        row_word_ptr_count: usize,
        row_word_indices: *const u32,
        row_word_indices_count: usize,
        row_masks: *const u64,
        row_masks_count: usize,
        structural_nnz: usize,
        column_nrows: usize,
        column_ncols: usize,
        column_word_ptr: *const u32,
        column_word_ptr_count: usize,
        column_word_indices: *const u32,
        column_word_indices_count: usize,
        column_masks: *const u64,
        column_masks_count: usize,
        column_structural_nnz: usize,
        columns: bool,
        number: u64,
        ordinal: u64,
    ) -> Answer;
    // first and second: number and bits of the row's word k; or none. Refuses as row_words.
    pub fn hybit_row_word(
        nrows: usize,
        ncols: usize,
        row_word_ptr: *const u32,
        row_word_ptr_count: usize,
        row_word_indices: *const u32,
        row_word_indices_count: usize,
        row_masks: *const u64,
        row_masks_count: usize,
        structural_nnz: usize,
        column_nrows: usize,
        column_ncols: usize,
        column_word_ptr: *const u32,
        column_word_ptr_count: usize,
        column_word_indices: *const u32,
        column_word_indices_count: usize,
        column_masks: *const u64,
        column_masks_count: usize,
        column_structural_nnz: usize,
        columns: bool,
        number: u64,
        k: u64,
    ) -> PairAnswer;
    // Region and frontier after `hops` hops, each node a block. Three masks of the side: region, frontier, and scratch, zero afterwards. Refuses as
    // the topology, 10, 11, 12 for the seeds, 25.
    pub fn hybit_grow_undirected_region(
        nrows: usize,
        ncols: usize,
        row_word_ptr: *const u32,
        row_word_ptr_count: usize,
        row_word_indices: *const u32,
        row_word_indices_count: usize,
        row_masks: *const u64,
        row_masks_count: usize,
        structural_nnz: usize,
        column_nrows: usize,
        column_ncols: usize,
        column_word_ptr: *const u32,
        column_word_ptr_count: usize,
        column_word_indices: *const u32,
        column_word_indices_count: usize,
        column_masks: *const u64,
        column_masks_count: usize,
        column_structural_nnz: usize,
        len: usize,
        words: *const u64,
        words_count: usize,
        hops: u64,
        region: *mut u64,
        region_count: usize,
        frontier: *mut u64,
        frontier_count: usize,
        scratch: *mut u64,
        scratch_count: usize,
    ) -> GrowthAnswer;
    // The same by whole blocks of the layout. Refuses as the topology, the layout, 18, 11, 12 for the seeds, 25.
    pub fn hybit_grow_field_aware_region(
        nrows: usize,
        ncols: usize,
        row_word_ptr: *const u32,
        row_word_ptr_count: usize,
        row_word_indices: *const u32,
        row_word_indices_count: usize,
        row_masks: *const u64,
        row_masks_count: usize,
        structural_nnz: usize,
        column_nrows: usize,
        column_ncols: usize,
        column_word_ptr: *const u32,
        column_word_ptr_count: usize,
        column_word_indices: *const u32,
        column_word_indices_count: usize,
        column_masks: *const u64,
        column_masks_count: usize,
        column_structural_nnz: usize,
        entity_kinds: *const u8,
        entity_kinds_count: usize,
        entity_ids: *const u64,
        entity_ids_count: usize,
        field_ids: *const u32,
        field_ids_count: usize,
        components: *const u32,
        components_count: usize,
        offsets: *const u64,
        offsets_count: usize,
        len: usize,
        words: *const u64,
        words_count: usize,
        hops: u64,
        region: *mut u64,
        region_count: usize,
        frontier: *mut u64,
        frontier_count: usize,
        scratch: *mut u64,
        scratch_count: usize,
    ) -> FieldGrowthAnswer;
    // The whole blocks of the nodes in `out`, a mask of the total; value: the total. Refuses as the layout, 11, 12 for the mask, 25.
    pub fn hybit_close_to_field_blocks(
        entity_kinds: *const u8,
        entity_kinds_count: usize,
        entity_ids: *const u64,
        entity_ids_count: usize,
        field_ids: *const u32,
        field_ids_count: usize,
        components: *const u32,
        components_count: usize,
        offsets: *const u64,
        offsets_count: usize,
        len: usize,
        words: *const u64,
        words_count: usize,
        out: *mut u64,
        out_count: usize,
    ) -> Answer;
    // The owner of each block in `out`, which needs one place for each; value: how many. Refuses as the layout, 11, 19, by block 20, 21, then 25.
    pub fn hybit_field_block_owners(
        entity_kinds: *const u8,
        entity_kinds_count: usize,
        entity_ids: *const u64,
        entity_ids_count: usize,
        field_ids: *const u32,
        field_ids_count: usize,
        components: *const u32,
        components_count: usize,
        offsets: *const u64,
        offsets_count: usize,
        dof_owners: *const u32,
        dof_owners_count: usize,
        ranks: u32,
        out: *mut u32,
        out_count: usize,
    ) -> Answer;
    // How many regions hold each node, in `counts`, which needs one place for each node. `words`: the masks of the regions one after the other.
    // Refuses 1, 11, 12, 25.
    pub fn hybit_region_multiplicity(
        node_count: usize,
        region_count: usize,
        words: *const u64,
        words_count: usize,
        counts: *mut u32,
        counts_count: usize,
    ) -> MultiplicityAnswer;
    // value: the region's weight at a node, 65,536 divided by the node's multiplicity, rounded down; 0 where it does not hold it. Refuses 1, 11, 12, 13.
    pub fn hybit_weight(
        node_count: usize,
        region_count: usize,
        words: *const u64,
        words_count: usize,
        region: u64,
        node: u64,
    ) -> Answer;
    // The local system's pattern: members, members + 1 row pointers, and one column for each pair inside. Refuses as the topology, 10, 11, 12 for
    // the region, 25.
    pub fn hybit_extract_local_submatrix_pattern(
        nrows: usize,
        ncols: usize,
        row_word_ptr: *const u32,
        row_word_ptr_count: usize,
        row_word_indices: *const u32,
        row_word_indices_count: usize,
        row_masks: *const u64,
        row_masks_count: usize,
        structural_nnz: usize,
        column_nrows: usize,
        column_ncols: usize,
        column_word_ptr: *const u32,
        column_word_ptr_count: usize,
        column_word_indices: *const u32,
        column_word_indices_count: usize,
        column_masks: *const u64,
        column_masks_count: usize,
        column_structural_nnz: usize,
        len: usize,
        words: *const u64,
        words_count: usize,
        global_nodes: *mut u32,
        global_nodes_count: usize,
        row_ptr: *mut u32,
        row_ptr_count: usize,
        col_idx: *mut u32,
        col_idx_count: usize,
    ) -> PatternAnswer;
    // Pattern and plan: the pattern's lists, pairs + 1 source pointers, and one source for each entry inside. Refuses as the matrix, the topology, 22,
    // 10, 11, 12 for the region, by local row 23, 24, then 25.
    pub fn hybit_prepare_local_numeric_plan(
        nrows: usize,
        ncols: usize,
        row_word_ptr: *const u32,
        row_word_ptr_count: usize,
        row_word_indices: *const u32,
        row_word_indices_count: usize,
        row_masks: *const u64,
        row_masks_count: usize,
        structural_nnz: usize,
        column_nrows: usize,
        column_ncols: usize,
        column_word_ptr: *const u32,
        column_word_ptr_count: usize,
        column_word_indices: *const u32,
        column_word_indices_count: usize,
        column_masks: *const u64,
        column_masks_count: usize,
        column_structural_nnz: usize,
        matrix_nrows: usize,
        matrix_ncols: usize,
        row_ptr: *const u32,
        row_ptr_count: usize,
        col_idx: *const u32,
        col_idx_count: usize,
        values: *const f64,
        values_count: usize,
        len: usize,
        words: *const u64,
        words_count: usize,
        global_nodes: *mut u32,
        global_nodes_count: usize,
        local_row_ptr: *mut u32,
        local_row_ptr_count: usize,
        local_col_idx: *mut u32,
        local_col_idx_count: usize,
        source_ptr: *mut u32,
        source_ptr_count: usize,
        source_indices: *mut u32,
        source_indices_count: usize,
    ) -> PlanAnswer;
    // One value for each pair of a plan in `out`; value: how many. `source_value_len`: the number of values that the plan was made for. Refuses 1,
    // 26, 11, 8, 25.
    pub fn hybit_gather_values(
        source_ptr: *const u32,
        source_ptr_count: usize,
        source_indices: *const u32,
        source_indices_count: usize,
        source_value_len: usize,
        values: *const f64,
        values_count: usize,
        out: *mut f64,
        out_count: usize,
    ) -> Answer;
    // Topology, region, pattern and plan of a matrix, a layout and seeds in one call. Each side's pointers and words, `starts` and `order` as in
    // building; three masks; side members, side + 1 row pointers, as many columns and sources as entries, entries + 1 source pointers, zero past
    // the answer. Refuses as the matrix, the layout, 18, 11, 12 for the seeds, 25.
    pub fn hybit_prepare_region(
        nrows: usize,
        ncols: usize,
        row_ptr: *const u32,
        row_ptr_count: usize,
        col_idx: *const u32,
        col_idx_count: usize,
        values: *const f64,
        values_count: usize,
        entity_kinds: *const u8,
        entity_kinds_count: usize,
        entity_ids: *const u64,
        entity_ids_count: usize,
        field_ids: *const u32,
        field_ids_count: usize,
        components: *const u32,
        components_count: usize,
        offsets: *const u64,
        offsets_count: usize,
        len: usize,
        words: *const u64,
        words_count: usize,
        hops: u64,
        row_word_ptr: *mut u32,
        row_word_ptr_count: usize,
        row_word_indices: *mut u32,
        row_word_indices_count: usize,
        row_masks: *mut u64,
        row_masks_count: usize,
        column_word_ptr: *mut u32,
        column_word_ptr_count: usize,
        column_word_indices: *mut u32,
        column_word_indices_count: usize,
        column_masks: *mut u64,
        column_masks_count: usize,
        starts: *mut u32,
        starts_count: usize,
        order: *mut u32,
        order_count: usize,
        region: *mut u64,
        region_count: usize,
        frontier: *mut u64,
        frontier_count: usize,
        scratch: *mut u64,
        scratch_count: usize,
        global_nodes: *mut u32,
        global_nodes_count: usize,
        local_row_ptr: *mut u32,
        local_row_ptr_count: usize,
        local_col_idx: *mut u32,
        local_col_idx_count: usize,
        source_ptr: *mut u32,
        source_ptr_count: usize,
        source_indices: *mut u32,
        source_indices_count: usize,
    ) -> PreparedAnswer;
    // As field_block_owners, on a matrix and its layout. Refuses as the matrix, the layout, 18, then as field_block_owners.
    pub fn hybit_validate_block_owners(
        nrows: usize,
        ncols: usize,
        row_ptr: *const u32,
        row_ptr_count: usize,
        col_idx: *const u32,
        col_idx_count: usize,
        values: *const f64,
        values_count: usize,
        entity_kinds: *const u8,
        entity_kinds_count: usize,
        entity_ids: *const u64,
        entity_ids_count: usize,
        field_ids: *const u32,
        field_ids_count: usize,
        components: *const u32,
        components_count: usize,
        offsets: *const u64,
        offsets_count: usize,
        dof_owners: *const u32,
        dof_owners_count: usize,
        ranks: u32,
        out: *mut u32,
        out_count: usize,
    ) -> Answer;
    // A job's text in, the answer's text out, a refused job's too; value: its length in bytes. Refuses 25 alone.
    pub fn hybit_peak_job(
        input: *const u8,
        input_count: usize,
        out: *mut u8,
        out_count: usize,
    ) -> Answer;
}
