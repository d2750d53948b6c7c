/* The calls of the region cutter, for C, C++ and Fortran. Made by tools/exports from crates/hybit_matrix/src: do not edit.
 *
 * A list passes as a pointer and the count of its elements; where that is 0 the pointer is not looked at. No two lists of one call overlap,
 * unless both are const. Lists of any length and any bits may be passed: a call refuses what it cannot take, reads and writes only what it
 * was lent, and returns.
 *
 * Every record begins with number (0, or the number of a refusal in the table below), present (whether there is an answer: false after a
 * refusal, and where the answer is none) and the two figures of a refusal, expected and actual (0 and 0 but for 11). After a refusal all
 * other fields are 0 and every list is as it was. After success the needed part of an output list holds the answer, what is past it is
 * as it was, and the needed part of a scratch list is zero.
 *
 * Nothing is allocated, no state is kept: calls may run in several threads at once on lists of their own. docs/C.md says how long each list
 * must be and how much stack a call takes.
 *
 * The same names mean the same in all calls:
 *   nrows, ncols, row_ptr, col_idx, values    a matrix by rows: row r has the entries from row_ptr[r] up to row_ptr[r + 1]
 *   row_word_ptr, row_word_indices, row_masks, structural_nnz
 *                                             a topology's rows: row r has the words from row_word_ptr[r] up to row_word_ptr[r + 1]; bit b of
 *                                             row_masks[k] is column 64 * row_word_indices[k] + b; structural_nnz is the number of pairs
 *   column_nrows, column_ncols, column_..     the same of its columns, each taken as a row: column_nrows is ncols, column_ncols is nrows
 *   columns, number                           a row of a topology: of its columns side if columns is true, else of its rows side; from 0
 *   len, words                                a mask: node i is bit i mod 64 of words[i / 64]; (len + 63) / 64 words
 *   entity_kinds, entity_ids, field_ids, components, offsets
 *                                             a layout: the four fields of each block, and where each block starts, then the total
 *   node_count, region_count, words           regions: the words of one mask after the other
 *   source_ptr, source_indices, source_value_len
 *                                             a plan: pair p sums the values at source_indices[source_ptr[p]] up to source_ptr[p + 1]
 *
 *   1  a side, mask length, node count or layout total over 1,048,576; entries, a topology's words or pairs, or sources over 16,777,216;
 *      regions over 65,536
 *   2  row_ptr length is not nrows + 1             3  col_idx and values lengths differ
 *   4  row_ptr does not start at 0                 5  last row_ptr is not the entry count
 *   6  row_ptr falls                               7  column not below ncols
 *   8  a value is not finite                       9  not a topology, or its columns are not the transpose of its rows
 *  10  topology not square                        11  a list has the wrong length
 *  12  a bit at or past the mask's length         13  index or rank offset out of range
 *  14  layout has no block                        15  block with 0 components
 *  16  kind, id and field id all repeat           17  kind is not 1 to 6 or 255
 *  18  layout total is not both sides             19  ranks is 0
 *  20  a block's first owner is not below ranks   21  owners differ inside a block
 *  22  topology and matrix sides differ           23  a topology pair inside the region has no entry
 *  24  an entry inside the region is missing from the topology
 *  25  a lent list is shorter than needed
 *  26  a plan's pointers or sources, or a layout's offsets, are wrong
 *  27  malformed job text
 */
#ifndef HYBIT_MATRIX_H
#define HYBIT_MATRIX_H

#include <stdbool.h>
#include <stddef.h>
#include <stdint.h>

#ifdef __cplusplus
extern "C" {
#endif

/* number: the refusal's number, or 0. present: there is an answer (false after a refusal, and where the answer is none). value: the count, the bit, or 1 for yes and 0 for no. */
typedef struct hybit_answer {
    uint32_t number;
    bool present;
    uint64_t expected;
    uint64_t actual;
    uint64_t value;
} hybit_answer;

/* An answer of two numbers, named at each call. The rest is as in `Answer`. */
typedef struct hybit_pair_answer {
    uint32_t number;
    bool present;
    uint64_t expected;
    uint64_t actual;
    uint64_t first;
    uint64_t second;
} hybit_pair_answer;

/* The width of a word, 64. */
size_t hybit_word_bits(void);

/* The word's number in its row. */
uint32_t hybit_word_word_index(uint32_t word_index, uint64_t mask);

/* The column of the word's bit 0: 64 times its number. */
size_t hybit_word_base_col(uint32_t word_index, uint64_t mask);

/* The word's bits. */
uint64_t hybit_word_mask(uint32_t word_index, uint64_t mask);

/* How many bits are set. */
size_t hybit_word_popcount(uint32_t word_index, uint64_t mask);

/* Whether bit `offset` is set; past 63: no. */
bool hybit_word_contains_offset(uint32_t word_index, uint64_t mask, size_t offset);

/* value: how many set bits stand below `offset`. Refuses 13 past 64. */
hybit_answer hybit_word_rank(uint32_t word_index, uint64_t mask, size_t offset);

/* value: the set bit number `ordinal`, counted from 0; or none. */
hybit_answer hybit_word_select(uint32_t word_index, uint64_t mask, size_t ordinal);

/* Checks a matrix: 1 to 8. */
hybit_answer hybit_csr32_validate(
    size_t nrows,
    size_t ncols,
    const uint32_t *row_ptr,
    size_t row_ptr_count,
    const uint32_t *col_idx,
    size_t col_idx_count,
    const double *values,
    size_t values_count);

/* Checks a mask: 1, 11, 12. A mask of `len` nodes has exactly `len` / 64 words, rounded up. */
hybit_answer hybit_mask_check(size_t len, const uint64_t *words, size_t words_count);

/* The empty mask in `out`, which needs its words. Refuses 1, 25. */
hybit_answer hybit_mask_new(size_t len, uint64_t *out, size_t out_count);

/* The mask of the indices in `out`, which needs its words. Refuses 1, 13, 25. */
hybit_answer hybit_mask_from_indices(
    size_t len,
    const uint64_t *indices,
    size_t indices_count,
    uint64_t *out,
    size_t out_count);

/* value: 1 if no node is set, else 0. Refuses as the check. */
hybit_answer hybit_mask_is_empty(size_t len, const uint64_t *words, size_t words_count);

/* value: how many nodes are set. Refuses as the check. */
hybit_answer hybit_mask_count_ones(size_t len, const uint64_t *words, size_t words_count);

/* Sets or clears one node. Refuses as the check, then 13. */
hybit_answer hybit_mask_set(
    size_t len,
    uint64_t *words,
    size_t words_count,
    uint64_t index,
    bool value);

/* value: 1 if the node is set, else 0; past the length 0. Refuses as the check. */
hybit_answer hybit_mask_contains(
    size_t len,
    const uint64_t *words,
    size_t words_count,
    uint64_t index);

/* Joins the other mask to the first. Refuses as the check, then for the other 11 (its length, its words), 12. */
hybit_answer hybit_mask_union_assign(
    size_t len,
    uint64_t *words,
    size_t words_count,
    size_t other_len,
    const uint64_t *other,
    size_t other_count);

/* Keeps the nodes that both have. Refuses as the union. */
hybit_answer hybit_mask_intersect_assign(
    size_t len,
    uint64_t *words,
    size_t words_count,
    size_t other_len,
    const uint64_t *other,
    size_t other_count);

/* Takes the other mask's nodes away. Refuses as the union. */
hybit_answer hybit_mask_and_not_assign(
    size_t len,
    uint64_t *words,
    size_t words_count,
    size_t other_len,
    const uint64_t *other,
    size_t other_count);

/* value: 1 if both have a node, else 0. Refuses as the union. */
hybit_answer hybit_mask_intersects(
    size_t len,
    const uint64_t *words,
    size_t words_count,
    size_t other_len,
    const uint64_t *other,
    size_t other_count);

/* The nodes in rising order in `out`, which needs one place for each; value: how many. Refuses as the check, then 25. */
hybit_answer hybit_mask_indices(
    size_t len,
    const uint64_t *words,
    size_t words_count,
    uint64_t *out,
    size_t out_count);

/* Sets the bits in one word; past the last word nothing changes, bits past the length are dropped. Refuses as the check. */
hybit_answer hybit_mask_or_word(
    size_t len,
    uint64_t *words,
    size_t words_count,
    uint64_t word_index,
    uint64_t bits);

/* value: the kind's number, which is the code. Refuses 17. */
hybit_answer hybit_kind_of(uint32_t code);

/* Running totals of the components in `out`, which needs blocks + 1; value: the total. Refuses 14, 11, by block 17, 15, 16, 1, then 25. */
hybit_answer hybit_layout_new(
    const uint8_t *entity_kinds,
    size_t entity_kinds_count,
    const uint64_t *entity_ids,
    size_t entity_ids_count,
    const uint32_t *field_ids,
    size_t field_ids_count,
    const uint32_t *components,
    size_t components_count,
    uint64_t *out,
    size_t out_count);

/* Checks a layout: as new, then 26. */
hybit_answer hybit_layout_check(
    const uint8_t *entity_kinds,
    size_t entity_kinds_count,
    const uint64_t *entity_ids,
    size_t entity_ids_count,
    const uint32_t *field_ids,
    size_t field_ids_count,
    const uint32_t *components,
    size_t components_count,
    const uint64_t *offsets,
    size_t offsets_count);

/* value: the total. Refuses as the check. */
hybit_answer hybit_layout_total_dofs(
    const uint8_t *entity_kinds,
    size_t entity_kinds_count,
    const uint64_t *entity_ids,
    size_t entity_ids_count,
    const uint32_t *field_ids,
    size_t field_ids_count,
    const uint32_t *components,
    size_t components_count,
    const uint64_t *offsets,
    size_t offsets_count);

/* first and second: start and end of a block; past the last block none. Refuses as the check. */
hybit_pair_answer hybit_layout_block_range(
    const uint8_t *entity_kinds,
    size_t entity_kinds_count,
    const uint64_t *entity_ids,
    size_t entity_ids_count,
    const uint32_t *field_ids,
    size_t field_ids_count,
    const uint32_t *components,
    size_t components_count,
    const uint64_t *offsets,
    size_t offsets_count,
    uint64_t index);

/* first and second: block and component of a node; past the last node none. Refuses as the check. */
hybit_pair_answer hybit_layout_locate(
    const uint8_t *entity_kinds,
    size_t entity_kinds_count,
    const uint64_t *entity_ids,
    size_t entity_ids_count,
    const uint32_t *field_ids,
    size_t field_ids_count,
    const uint32_t *components,
    size_t components_count,
    const uint64_t *offsets,
    size_t offsets_count,
    uint64_t dof);

/* Whether the total is both sides. Refuses as the check, then 18. */
hybit_answer hybit_layout_validate_square_matrix_size(
    const uint8_t *entity_kinds,
    size_t entity_kinds_count,
    const uint64_t *entity_ids,
    size_t entity_ids_count,
    const uint32_t *field_ids,
    size_t field_ids_count,
    const uint32_t *components,
    size_t components_count,
    const uint64_t *offsets,
    size_t offsets_count,
    size_t nrows,
    size_t ncols);

/* The mask of a field's nodes in `out`, which needs the words of a mask of the total; value: the total. Refuses as the check, then 25. */
hybit_answer hybit_layout_field_mask(
    const uint8_t *entity_kinds,
    size_t entity_kinds_count,
    const uint64_t *entity_ids,
    size_t entity_ids_count,
    const uint32_t *field_ids,
    size_t field_ids_count,
    const uint32_t *components,
    size_t components_count,
    const uint64_t *offsets,
    size_t offsets_count,
    uint32_t field_id,
    uint64_t *out,
    size_t out_count);

/* Counts, bytes and the three ratios; all 0 on a refusal. */
typedef struct hybit_topology_stats_answer {
    uint32_t number;
    bool present;
    uint64_t expected;
    uint64_t actual;
    uint64_t nrows;
    uint64_t ncols;
    uint64_t structural_nnz;
    uint64_t nonempty_words;
    uint64_t metadata_bytes;
    double average_word_nnz;
    double word_fill_ratio;
    double metadata_bytes_per_nnz;
} hybit_topology_stats_answer;

/* Checks one side: 1, 9. */
hybit_answer hybit_topology_validate(
    size_t nrows,
    size_t ncols,
    const uint32_t *row_word_ptr,
    size_t row_word_ptr_count,
    const uint32_t *word_indices,
    size_t word_indices_count,
    const uint64_t *masks,
    size_t masks_count,
    size_t structural_nnz);

/* Counts, bytes and ratios of one side. Refuses 1, 9. */
hybit_topology_stats_answer hybit_topology_stats(
    size_t nrows,
    size_t ncols,
    const uint32_t *row_word_ptr,
    size_t row_word_ptr_count,
    const uint32_t *word_indices,
    size_t word_indices_count,
    const uint64_t *masks,
    size_t masks_count,
    size_t structural_nnz);

/* One side of a matrix's pairs: the lists need nrows + 1 pointers and as many words as entries, zero past its own; first and second: words and pairs. Refuses 1 to 8, 25. */
hybit_pair_answer hybit_topology_from_csr32(
    size_t nrows,
    size_t ncols,
    const uint32_t *row_ptr,
    size_t row_ptr_count,
    const uint32_t *col_idx,
    size_t col_idx_count,
    const double *values,
    size_t values_count,
    uint32_t *row_word_ptr,
    size_t row_word_ptr_count,
    uint32_t *word_indices,
    size_t word_indices_count,
    uint64_t *masks,
    size_t masks_count);

/* The pairs that both sides have: the lists need nrows + 1 pointers and as many words as both together, zero past its own; first and second: words and pairs. Refuses 1, 9 for each, 22, 25. */
hybit_pair_answer hybit_topology_intersection(
    size_t nrows,
    size_t ncols,
    const uint32_t *ptr_a,
    size_t ptr_a_count,
    const uint32_t *words_a,
    size_t words_a_count,
    const uint64_t *masks_a,
    size_t masks_a_count,
    size_t pairs_a,
    size_t nrows_b,
    size_t ncols_b,
    const uint32_t *ptr_b,
    size_t ptr_b_count,
    const uint32_t *words_b,
    size_t words_b_count,
    const uint64_t *masks_b,
    size_t masks_b_count,
    size_t pairs_b,
    uint32_t *row_word_ptr,
    size_t row_word_ptr_count,
    uint32_t *word_indices,
    size_t word_indices_count,
    uint64_t *masks,
    size_t masks_count);

/* The pairs of either side; all else as the intersection. */
hybit_pair_answer hybit_topology_union(
    size_t nrows,
    size_t ncols,
    const uint32_t *ptr_a,
    size_t ptr_a_count,
    const uint32_t *words_a,
    size_t words_a_count,
    const uint64_t *masks_a,
    size_t masks_a_count,
    size_t pairs_a,
    size_t nrows_b,
    size_t ncols_b,
    const uint32_t *ptr_b,
    size_t ptr_b_count,
    const uint32_t *words_b,
    size_t words_b_count,
    const uint64_t *masks_b,
    size_t masks_b_count,
    size_t pairs_b,
    uint32_t *row_word_ptr,
    size_t row_word_ptr_count,
    uint32_t *word_indices,
    size_t word_indices_count,
    uint64_t *masks,
    size_t masks_count);

/* The pairs of the first side that the second lacks; all else as the intersection. */
hybit_pair_answer hybit_topology_and_not(
    size_t nrows,
    size_t ncols,
    const uint32_t *ptr_a,
    size_t ptr_a_count,
    const uint32_t *words_a,
    size_t words_a_count,
    const uint64_t *masks_a,
    size_t masks_a_count,
    size_t pairs_a,
    size_t nrows_b,
    size_t ncols_b,
    const uint32_t *ptr_b,
    size_t ptr_b_count,
    const uint32_t *words_b,
    size_t words_b_count,
    const uint64_t *masks_b,
    size_t masks_b_count,
    size_t pairs_b,
    uint32_t *row_word_ptr,
    size_t row_word_ptr_count,
    uint32_t *word_indices,
    size_t word_indices_count,
    uint64_t *masks,
    size_t masks_count);

/* The pairs that one side alone has; all else as the intersection. */
hybit_pair_answer hybit_topology_xor(
    size_t nrows,
    size_t ncols,
    const uint32_t *ptr_a,
    size_t ptr_a_count,
    const uint32_t *words_a,
    size_t words_a_count,
    const uint64_t *masks_a,
    size_t masks_a_count,
    size_t pairs_a,
    size_t nrows_b,
    size_t ncols_b,
    const uint32_t *ptr_b,
    size_t ptr_b_count,
    const uint32_t *words_b,
    size_t words_b_count,
    const uint64_t *masks_b,
    size_t masks_b_count,
    size_t pairs_b,
    uint32_t *row_word_ptr,
    size_t row_word_ptr_count,
    uint32_t *word_indices,
    size_t word_indices_count,
    uint64_t *masks,
    size_t masks_count);

/* Counts, bytes and the ratio; all 0 on a refusal. */
typedef struct hybit_dual_stats_answer {
    uint32_t number;
    bool present;
    uint64_t expected;
    uint64_t actual;
    uint64_t nrows;
    uint64_t ncols;
    uint64_t structural_nnz;
    uint64_t row_metadata_bytes;
    uint64_t column_metadata_bytes;
    uint64_t total_metadata_bytes;
    double metadata_bytes_per_nnz;
} hybit_dual_stats_answer;

/* How many words each side has, and how many pairs both have. */
typedef struct hybit_build_answer {
    uint32_t number;
    bool present;
    uint64_t expected;
    uint64_t actual;
    uint64_t row_words;
    uint64_t column_words;
    uint64_t pairs;
} hybit_build_answer;

/* Both sides of a matrix's pairs: each needs its rows + 1 pointers and as many words as entries, zero past its own. `starts` (ncols + 1) and `order` (one for each entry) are scratch, zero afterwards. Refuses 1 to 8, 25. */
hybit_build_answer hybit_dual_topology_from_csr32(
    size_t nrows,
    size_t ncols,
    const uint32_t *row_ptr,
    size_t row_ptr_count,
    const uint32_t *col_idx,
    size_t col_idx_count,
    const double *values,
    size_t values_count,
    uint32_t *row_word_ptr,
    size_t row_word_ptr_count,
    uint32_t *row_word_indices,
    size_t row_word_indices_count,
    uint64_t *row_masks,
    size_t row_masks_count,
    uint32_t *column_word_ptr,
    size_t column_word_ptr_count,
    uint32_t *column_word_indices,
    size_t column_word_indices_count,
    uint64_t *column_masks,
    size_t column_masks_count,
    uint32_t *starts,
    size_t starts_count,
    uint32_t *order,
    size_t order_count);

/* Checks a topology: 1 (both sides), 9 (each side, and that the columns are the transpose of the rows). */
hybit_answer hybit_dual_topology_validate(
    size_t nrows,
    size_t ncols,
    const uint32_t *row_word_ptr,
    size_t row_word_ptr_count,
    const uint32_t *row_word_indices,
    size_t row_word_indices_count,
    const uint64_t *row_masks,
    size_t row_masks_count,
    size_t structural_nnz,
    size_t column_nrows,
    size_t column_ncols,
    const uint32_t *column_word_ptr,
    size_t column_word_ptr_count,
    const uint32_t *column_word_indices,
    size_t column_word_indices_count,
    const uint64_t *column_masks,
    size_t column_masks_count,
    size_t column_structural_nnz);

/* Counts and bytes of a topology. Refuses 1, 9. */
hybit_dual_stats_answer hybit_dual_topology_stats(
    size_t nrows,
    size_t ncols,
    const uint32_t *row_word_ptr,
    size_t row_word_ptr_count,
    const uint32_t *row_word_indices,
    size_t row_word_indices_count,
    const uint64_t *row_masks,
    size_t row_masks_count,
    size_t structural_nnz,
    size_t column_nrows,
    size_t column_ncols,
    const uint32_t *column_word_ptr,
    size_t column_word_ptr_count,
    const uint32_t *column_word_indices,
    size_t column_word_indices_count,
    const uint64_t *column_masks,
    size_t column_masks_count,
    size_t column_structural_nnz);

/* value: how many words a row stores. Refuses 1, 9, then 13 for the number. */
hybit_answer hybit_row_words(
    size_t nrows,
    size_t ncols,
    const uint32_t *row_word_ptr,
    size_t row_word_ptr_count,
    const uint32_t *row_word_indices,
    size_t row_word_indices_count,
    const uint64_t *row_masks,
    size_t row_masks_count,
    size_t structural_nnz,
    size_t column_nrows,
    size_t column_ncols,
    const uint32_t *column_word_ptr,
    size_t column_word_ptr_count,
    const uint32_t *column_word_indices,
    size_t column_word_indices_count,
    const uint64_t *column_masks,
    size_t column_masks_count,
    size_t column_structural_nnz,
    bool columns,
    uint64_t number);

/* value: how many columns a row has. Refuses as row_words. */
hybit_answer hybit_row_popcount(
    size_t nrows,
    size_t ncols,
    const uint32_t *row_word_ptr,
    size_t row_word_ptr_count,
    const uint32_t *row_word_indices,
    size_t row_word_indices_count,
    const uint64_t *row_masks,
    size_t row_masks_count,
    size_t structural_nnz,
    size_t column_nrows,
    size_t column_ncols,
    const uint32_t *column_word_ptr,
    size_t column_word_ptr_count,
    const uint32_t *column_word_indices,
    size_t column_word_indices_count,
    const uint64_t *column_masks,
    size_t column_masks_count,
    size_t column_structural_nnz,
    bool columns,
    uint64_t number);

/* value: 1 if the row has the column, else 0; past the last column 0. Refuses as row_words. */
hybit_answer hybit_row_contains(
    size_t nrows,
    size_t ncols,
    const uint32_t *row_word_ptr,
    size_t row_word_ptr_count,
    const uint32_t *row_word_indices,
    size_t row_word_indices_count,
    const uint64_t *row_masks,
    size_t row_masks_count,
    size_t structural_nnz,
    size_t column_nrows,
    size_t column_ncols,
    const uint32_t *column_word_ptr,
    size_t column_word_ptr_count,
    const uint32_t *column_word_indices,
    size_t column_word_indices_count,
    const uint64_t *column_masks,
    size_t column_masks_count,
    size_t column_structural_nnz,
    bool columns,
    uint64_t number,
    uint64_t col);

/* value: how many of the row's columns stand below `col`. Refuses as row_words, then 13 for a column past the end. */
hybit_answer hybit_row_rank(
    size_t nrows,
    size_t ncols,
    const uint32_t *row_word_ptr,
    size_t row_word_ptr_count,
    const uint32_t *row_word_indices,
    size_t row_word_indices_count,
    const uint64_t *row_masks,
    size_t row_masks_count,
    size_t structural_nnz,
    size_t column_nrows,
    size_t column_ncols,
    const uint32_t *column_word_ptr,
    size_t column_word_ptr_count,
    const uint32_t *column_word_indices,
    size_t column_word_indices_count,
    const uint64_t *column_masks,
    size_t column_masks_count,
    size_t column_structural_nnz,
    bool columns,
    uint64_t number,
    uint64_t col);

/* value: the row's column number `ordinal`, counted from 0; or none. Refuses as row_words. */
hybit_answer hybit_row_select(
    size_t nrows,
    size_t ncols,
    const uint32_t *row_word_ptr,
    size_t row_word_ptr_count,
    const uint32_t *row_word_indices,
    size_t row_word_indices_count,
    const uint64_t *row_masks,
    size_t row_masks_count,
    size_t structural_nnz,
    size_t column_nrows,
    size_t column_ncols,
    const uint32_t *column_word_ptr,
    size_t column_word_ptr_count,
    const uint32_t *column_word_indices,
    size_t column_word_indices_count,
    const uint64_t *column_masks,
    size_t column_masks_count,
    size_t column_structural_nnz,
    bool columns,
    uint64_t number,
    uint64_t ordinal);

/* first and second: number and bits of the row's word k; or none. Refuses as row_words. */
hybit_pair_answer hybit_row_word(
    size_t nrows,
    size_t ncols,
    const uint32_t *row_word_ptr,
    size_t row_word_ptr_count,
    const uint32_t *row_word_indices,
    size_t row_word_indices_count,
    const uint64_t *row_masks,
    size_t row_masks_count,
    size_t structural_nnz,
    size_t column_nrows,
    size_t column_ncols,
    const uint32_t *column_word_ptr,
    size_t column_word_ptr_count,
    const uint32_t *column_word_indices,
    size_t column_word_indices_count,
    const uint64_t *column_masks,
    size_t column_masks_count,
    size_t column_structural_nnz,
    bool columns,
    uint64_t number,
    uint64_t k);

/* The statistics of a growth, and the two figures that follow from them; all 0 on a refusal. */
typedef struct hybit_growth_answer {
    uint32_t number;
    bool present;
    uint64_t expected;
    uint64_t actual;
    uint64_t hops_requested;
    uint64_t hops_completed;
    uint64_t seed_nodes;
    uint64_t region_nodes;
    uint64_t frontier_nodes_visited;
    uint64_t row_words_visited;
    uint64_t column_words_visited;
    uint64_t candidate_neighbor_bits;
    uint64_t topology_words_visited;
    uint64_t new_nodes;
} hybit_growth_answer;

/* The statistics of a field growth; all 0 on a refusal. */
typedef struct hybit_field_growth_answer {
    uint32_t number;
    bool present;
    uint64_t expected;
    uint64_t actual;
    uint64_t hops_requested;
    uint64_t hops_completed;
    uint64_t seed_dofs;
    uint64_t block_closed_seed_dofs;
    uint64_t region_dofs;
    uint64_t region_blocks;
    uint64_t frontier_dofs_visited;
    uint64_t row_words_visited;
    uint64_t column_words_visited;
    uint64_t candidate_neighbor_bits;
} hybit_field_growth_answer;

/* The statistics of the regions; all 0 on a refusal. */
typedef struct hybit_multiplicity_answer {
    uint32_t number;
    bool present;
    uint64_t expected;
    uint64_t actual;
    uint64_t region_count;
    uint64_t node_count;
    uint64_t total_memberships;
    uint64_t covered_nodes;
    uint64_t overlap_nodes;
    uint64_t max_multiplicity;
    uint64_t pair_overlap_memberships;
    uint64_t extra_memberships;
    double average_multiplicity_on_covered;
    double overlap_fraction_on_covered;
} hybit_multiplicity_answer;

/* Region and frontier after `hops` hops, each node a block. Three masks of the side: region, frontier, and scratch, zero afterwards. Refuses as the topology, 10, 11, 12 for the seeds, 25. */
hybit_growth_answer hybit_grow_undirected_region(
    size_t nrows,
    size_t ncols,
    const uint32_t *row_word_ptr,
    size_t row_word_ptr_count,
    const uint32_t *row_word_indices,
    size_t row_word_indices_count,
    const uint64_t *row_masks,
    size_t row_masks_count,
    size_t structural_nnz,
    size_t column_nrows,
    size_t column_ncols,
    const uint32_t *column_word_ptr,
    size_t column_word_ptr_count,
    const uint32_t *column_word_indices,
    size_t column_word_indices_count,
    const uint64_t *column_masks,
    size_t column_masks_count,
    size_t column_structural_nnz,
    size_t len,
    const uint64_t *words,
    size_t words_count,
    uint64_t hops,
    uint64_t *region,
    size_t region_count,
    uint64_t *frontier,
    size_t frontier_count,
    uint64_t *scratch,
    size_t scratch_count);

/* The same by whole blocks of the layout. Refuses as the topology, the layout, 18, 11, 12 for the seeds, 25. */
hybit_field_growth_answer hybit_grow_field_aware_region(
    size_t nrows,
    size_t ncols,
    const uint32_t *row_word_ptr,
    size_t row_word_ptr_count,
    const uint32_t *row_word_indices,
    size_t row_word_indices_count,
    const uint64_t *row_masks,
    size_t row_masks_count,
    size_t structural_nnz,
    size_t column_nrows,
    size_t column_ncols,
    const uint32_t *column_word_ptr,
    size_t column_word_ptr_count,
    const uint32_t *column_word_indices,
    size_t column_word_indices_count,
    const uint64_t *column_masks,
    size_t column_masks_count,
    size_t column_structural_nnz,
    const uint8_t *entity_kinds,
    size_t entity_kinds_count,
    const uint64_t *entity_ids,
    size_t entity_ids_count,
    const uint32_t *field_ids,
    size_t field_ids_count,
    const uint32_t *components,
    size_t components_count,
    const uint64_t *offsets,
    size_t offsets_count,
    size_t len,
    const uint64_t *words,
    size_t words_count,
    uint64_t hops,
    uint64_t *region,
    size_t region_count,
    uint64_t *frontier,
    size_t frontier_count,
    uint64_t *scratch,
    size_t scratch_count);

/* The whole blocks of the nodes in `out`, a mask of the total; value: the total. Refuses as the layout, 11, 12 for the mask, 25. */
hybit_answer hybit_close_to_field_blocks(
    const uint8_t *entity_kinds,
    size_t entity_kinds_count,
    const uint64_t *entity_ids,
    size_t entity_ids_count,
    const uint32_t *field_ids,
    size_t field_ids_count,
    const uint32_t *components,
    size_t components_count,
    const uint64_t *offsets,
    size_t offsets_count,
    size_t len,
    const uint64_t *words,
    size_t words_count,
    uint64_t *out,
    size_t out_count);

/* The owner of each block in `out`, which needs one place for each; value: how many. Refuses as the layout, 11, 19, by block 20, 21, then 25. */
hybit_answer hybit_field_block_owners(
    const uint8_t *entity_kinds,
    size_t entity_kinds_count,
    const uint64_t *entity_ids,
    size_t entity_ids_count,
    const uint32_t *field_ids,
    size_t field_ids_count,
    const uint32_t *components,
    size_t components_count,
    const uint64_t *offsets,
    size_t offsets_count,
    const uint32_t *dof_owners,
    size_t dof_owners_count,
    uint32_t ranks,
    uint32_t *out,
    size_t out_count);

/* How many regions hold each node, in `counts`, which needs one place for each node. `words`: the masks of the regions one after the other. Refuses 1, 11, 12, 25. */
hybit_multiplicity_answer hybit_region_multiplicity(
    size_t node_count,
    size_t region_count,
    const uint64_t *words,
    size_t words_count,
    uint32_t *counts,
    size_t counts_count);

/* value: the region's weight at a node, 65,536 divided by the node's multiplicity, rounded down; 0 where it does not hold it. Refuses 1, 11, 12, 13. */
hybit_answer hybit_weight(
    size_t node_count,
    size_t region_count,
    const uint64_t *words,
    size_t words_count,
    uint64_t region,
    uint64_t node);

/* The statistics of a pattern, and the two ratios that follow from them; all 0 on a refusal. */
typedef struct hybit_pattern_answer {
    uint32_t number;
    bool present;
    uint64_t expected;
    uint64_t actual;
    uint64_t global_nodes;
    uint64_t local_nodes;
    uint64_t local_nnz;
    uint64_t topology_words_visited;
    uint64_t candidate_neighbor_bits;
    uint64_t kept_neighbor_bits;
    uint64_t mapping_scratch_bytes;
    uint64_t pattern_bytes;
    double structural_pruning_ratio;
    double average_local_row_nnz;
} hybit_pattern_answer;

/* The statistics of a plan; all 0 on a refusal. */
typedef struct hybit_plan_answer {
    uint32_t number;
    bool present;
    uint64_t expected;
    uint64_t actual;
    uint64_t local_nodes;
    uint64_t local_nnz;
    uint64_t source_terms;
    uint64_t duplicate_source_terms;
    bool direct_source_map;
    uint64_t plan_bytes;
} hybit_plan_answer;

/* The local system's pattern: members, members + 1 row pointers, and one column for each pair inside. Refuses as the topology, 10, 11, 12 for the region, 25. */
hybit_pattern_answer hybit_extract_local_submatrix_pattern(
    size_t nrows,
    size_t ncols,
    const uint32_t *row_word_ptr,
    size_t row_word_ptr_count,
    const uint32_t *row_word_indices,
    size_t row_word_indices_count,
    const uint64_t *row_masks,
    size_t row_masks_count,
    size_t structural_nnz,
    size_t column_nrows,
    size_t column_ncols,
    const uint32_t *column_word_ptr,
    size_t column_word_ptr_count,
    const uint32_t *column_word_indices,
    size_t column_word_indices_count,
    const uint64_t *column_masks,
    size_t column_masks_count,
    size_t column_structural_nnz,
    size_t len,
    const uint64_t *words,
    size_t words_count,
    uint32_t *global_nodes,
    size_t global_nodes_count,
    uint32_t *row_ptr,
    size_t row_ptr_count,
    uint32_t *col_idx,
    size_t col_idx_count);

/* Pattern and plan: the pattern's lists, pairs + 1 source pointers, and one source for each entry inside. Refuses as the matrix, the topology, 22, 10, 11, 12 for the region, by local row 23, 24, then 25. */
hybit_plan_answer hybit_prepare_local_numeric_plan(
    size_t nrows,
    size_t ncols,
    const uint32_t *row_word_ptr,
    size_t row_word_ptr_count,
    const uint32_t *row_word_indices,
    size_t row_word_indices_count,
    const uint64_t *row_masks,
    size_t row_masks_count,
    size_t structural_nnz,
    size_t column_nrows,
    size_t column_ncols,
    const uint32_t *column_word_ptr,
    size_t column_word_ptr_count,
    const uint32_t *column_word_indices,
    size_t column_word_indices_count,
    const uint64_t *column_masks,
    size_t column_masks_count,
    size_t column_structural_nnz,
    size_t matrix_nrows,
    size_t matrix_ncols,
    const uint32_t *row_ptr,
    size_t row_ptr_count,
    const uint32_t *col_idx,
    size_t col_idx_count,
    const double *values,
    size_t values_count,
    size_t len,
    const uint64_t *words,
    size_t words_count,
    uint32_t *global_nodes,
    size_t global_nodes_count,
    uint32_t *local_row_ptr,
    size_t local_row_ptr_count,
    uint32_t *local_col_idx,
    size_t local_col_idx_count,
    uint32_t *source_ptr,
    size_t source_ptr_count,
    uint32_t *source_indices,
    size_t source_indices_count);

/* One value for each pair of a plan in `out`; value: how many. `source_value_len`: the number of values that the plan was made for. Refuses 1, 26, 11, 8, 25. */
hybit_answer hybit_gather_values(
    const uint32_t *source_ptr,
    size_t source_ptr_count,
    const uint32_t *source_indices,
    size_t source_indices_count,
    size_t source_value_len,
    const double *values,
    size_t values_count,
    double *out,
    size_t out_count);

/* The counts of the topology, then the statistics of topology, growth, pattern and plan; a name that two of them have is told apart by a prefix. All 0 and false on a refusal. */
typedef struct hybit_prepared_answer {
    uint32_t number;
    bool present;
    uint64_t expected;
    uint64_t actual;
    uint64_t row_words;
    uint64_t column_words;
    uint64_t pairs;
    uint32_t topology_nrows;
    uint32_t topology_ncols;
    uint32_t structural_nnz;
    uint32_t row_metadata_bytes;
    uint32_t column_metadata_bytes;
    uint64_t hops_requested;
    uint64_t hops_completed;
    uint64_t seed_dofs;
    uint64_t block_closed_seed_dofs;
    uint64_t region_dofs;
    uint64_t region_blocks;
    uint64_t frontier_dofs_visited;
    uint64_t row_words_visited;
    uint64_t column_words_visited;
    uint64_t candidate_neighbor_bits;
    uint32_t global_nodes;
    uint32_t local_nodes;
    uint32_t local_nnz;
    uint32_t topology_words_visited;
    uint32_t pattern_candidate_bits;
    uint32_t kept_neighbor_bits;
    uint32_t mapping_scratch_bytes;
    uint32_t pattern_bytes;
    uint32_t plan_local_nodes;
    uint32_t plan_local_nnz;
    uint32_t source_terms;
    uint32_t duplicate_source_terms;
    bool direct_source_map;
    uint32_t plan_bytes;
} hybit_prepared_answer;

/* Topology, region, pattern and plan of a matrix, a layout and seeds in one call. Each side's pointers and words, `starts` and `order` as in building; three masks; side members, side + 1 row pointers, as many columns and sources as entries, entries + 1 source pointers, zero past the answer. Refuses as the matrix, the layout, 18, 11, 12 for the seeds, 25. */
hybit_prepared_answer hybit_prepare_region(
    size_t nrows,
    size_t ncols,
    const uint32_t *row_ptr,
    size_t row_ptr_count,
    const uint32_t *col_idx,
    size_t col_idx_count,
    const double *values,
    size_t values_count,
    const uint8_t *entity_kinds,
    size_t entity_kinds_count,
    const uint64_t *entity_ids,
    size_t entity_ids_count,
    const uint32_t *field_ids,
    size_t field_ids_count,
    const uint32_t *components,
    size_t components_count,
    const uint64_t *offsets,
    size_t offsets_count,
    size_t len,
    const uint64_t *words,
    size_t words_count,
    uint64_t hops,
    uint32_t *row_word_ptr,
    size_t row_word_ptr_count,
    uint32_t *row_word_indices,
    size_t row_word_indices_count,
    uint64_t *row_masks,
    size_t row_masks_count,
    uint32_t *column_word_ptr,
    size_t column_word_ptr_count,
    uint32_t *column_word_indices,
    size_t column_word_indices_count,
    uint64_t *column_masks,
    size_t column_masks_count,
    uint32_t *starts,
    size_t starts_count,
    uint32_t *order,
    size_t order_count,
    uint64_t *region,
    size_t region_count,
    uint64_t *frontier,
    size_t frontier_count,
    uint64_t *scratch,
    size_t scratch_count,
    uint32_t *global_nodes,
    size_t global_nodes_count,
    uint32_t *local_row_ptr,
    size_t local_row_ptr_count,
    uint32_t *local_col_idx,
    size_t local_col_idx_count,
    uint32_t *source_ptr,
    size_t source_ptr_count,
    uint32_t *source_indices,
    size_t source_indices_count);

/* As field_block_owners, on a matrix and its layout. Refuses as the matrix, the layout, 18, then as field_block_owners. */
hybit_answer hybit_validate_block_owners(
    size_t nrows,
    size_t ncols,
    const uint32_t *row_ptr,
    size_t row_ptr_count,
    const uint32_t *col_idx,
    size_t col_idx_count,
    const double *values,
    size_t values_count,
    const uint8_t *entity_kinds,
    size_t entity_kinds_count,
    const uint64_t *entity_ids,
    size_t entity_ids_count,
    const uint32_t *field_ids,
    size_t field_ids_count,
    const uint32_t *components,
    size_t components_count,
    const uint64_t *offsets,
    size_t offsets_count,
    const uint32_t *dof_owners,
    size_t dof_owners_count,
    uint32_t ranks,
    uint32_t *out,
    size_t out_count);

/* A job's text in, the answer's text out, a refused job's too; value: its length in bytes. Refuses 25 alone. */
hybit_answer hybit_peak_job(
    const uint8_t *input,
    size_t input_count,
    uint8_t *out,
    size_t out_count);

#ifdef __cplusplus
}
#endif

#endif
