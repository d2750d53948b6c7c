/* Document 01's examples through the C functions: every exported function, every number of a refusal, every field of every record.
 * Written in what C99 and C++17 share. Prints a line for each expectation that fails, and how many there were.
 */
#include <math.h>
#include <stdio.h>
#include <string.h>

#include "../../include/hybit_matrix.h"

static unsigned checks, failed;

static void expect(bool holds, const char *what, int line)
{
    checks++;
    if (!holds) {
        failed++;
        printf("calls.c:%d: %s\n", line, what);
    }
}

#define CHECK(condition) expect(condition, #condition, __LINE__)

/* A list as pointer and count. */
#define LIST(array) array, sizeof(array) / sizeof *(array)

#define HEAD(a, n, p, e, g) expect((a).number == (n) && (a).present == (p) && (a).expected == (e) && (a).actual == (g), #a ": " #n, __LINE__)
#define ACCEPTED(a) HEAD(a, 0, true, 0, 0)
#define NONE(a) HEAD(a, 0, false, 0, 0)
#define REFUSED(a, n) HEAD(a, n, false, 0, 0)
#define WRONG_LENGTH(a, e, g) HEAD(a, 11, false, e, g)
#define VALUE(a, v) (ACCEPTED(a), CHECK((a).value == (v)))
#define PAIR(a, x, y) (ACCEPTED(a), CHECK((a).first == (x) && (a).second == (y)))
#define SAME(list, wanted) expect(sizeof(list) == sizeof(wanted) && !memcmp(list, wanted, sizeof(wanted)), #list " is " #wanted, __LINE__)

enum { LIMIT = 1048576 };

static hybit_answer answer;
static hybit_pair_answer pair;

static void words(void)
{
    CHECK(hybit_word_bits() == 64);
    CHECK(hybit_word_word_index(3, 22) == 3);
    CHECK(hybit_word_base_col(3, 22) == 192);
    CHECK(hybit_word_base_col(UINT32_MAX, 22) == (size_t)UINT32_MAX * 64);
    CHECK(hybit_word_mask(3, 22) == 22);
    CHECK(hybit_word_popcount(3, 22) == 3);
    CHECK(hybit_word_contains_offset(3, 22, 1));
    CHECK(!hybit_word_contains_offset(3, 22, 3));
    CHECK(!hybit_word_contains_offset(3, 22, 64));
    VALUE(answer = hybit_word_rank(3, 22, 2), 1);
    VALUE(answer = hybit_word_rank(3, 22, 64), 3);
    REFUSED(answer = hybit_word_rank(3, 22, 65), 13);
    CHECK(answer.value == 0);
    VALUE(answer = hybit_word_select(3, 22, 2), 4);
    NONE(answer = hybit_word_select(3, 22, 3));
}

static uint32_t many_rows[LIMIT + 1];

static void matrices(void)
{
    static const uint32_t none[] = {0}, one[] = {0, 1}, late[] = {1, 1}, past[] = {0, 2}, falling[] = {0, 2, 1};
    static const uint32_t first[] = {0}, fourth[] = {3};
    static const double value[] = {1.0}, infinite[] = {INFINITY};
    REFUSED(answer = hybit_csr32_validate(LIMIT + 1, 1, LIST(none), 0, 0, 0, 0), 1);
    REFUSED(answer = hybit_csr32_validate(2, 1, LIST(one), LIST(first), LIST(value)), 2);
    REFUSED(answer = hybit_csr32_validate(1, 1, LIST(one), LIST(first), 0, 0), 3);
    REFUSED(answer = hybit_csr32_validate(1, 1, LIST(late), LIST(first), LIST(value)), 4);
    REFUSED(answer = hybit_csr32_validate(1, 1, LIST(past), LIST(first), LIST(value)), 5);
    REFUSED(answer = hybit_csr32_validate(2, 1, LIST(falling), LIST(first), LIST(value)), 6);
    REFUSED(answer = hybit_csr32_validate(1, 3, LIST(one), LIST(fourth), LIST(value)), 7);
    REFUSED(answer = hybit_csr32_validate(1, 1, LIST(one), LIST(first), LIST(infinite)), 8);
    VALUE(answer = hybit_csr32_validate(1, 1, LIST(one), LIST(first), LIST(value)), 0);
    VALUE(answer = hybit_csr32_validate(LIMIT, LIMIT, LIST(many_rows), 0, 0, 0, 0), 0);
}

static void mask_questions(void)
{
    static const uint64_t one[] = {22}, two[] = {0, 1}, stray[] = {0, 2}, empty[] = {0, 0};
    VALUE(answer = hybit_mask_check(64, LIST(one)), 0);
    VALUE(answer = hybit_mask_check(65, LIST(two)), 0);
    REFUSED(answer = hybit_mask_check(65, LIST(stray)), 12);
    WRONG_LENGTH(answer = hybit_mask_check(65, LIST(one)), 2, 1);
    REFUSED(answer = hybit_mask_check(LIMIT + 1, LIST(one)), 1);
    VALUE(answer = hybit_mask_is_empty(65, LIST(empty)), 1);
    VALUE(answer = hybit_mask_is_empty(65, LIST(two)), 0);
    VALUE(answer = hybit_mask_count_ones(5, LIST(one)), 3);
    REFUSED(answer = hybit_mask_count_ones(4, LIST(one)), 12);
    VALUE(answer = hybit_mask_contains(5, LIST(one), 4), 1);
    VALUE(answer = hybit_mask_contains(5, LIST(one), 5), 0);
    VALUE(answer = hybit_mask_contains(5, LIST(one), UINT64_MAX), 0);
    VALUE(answer = hybit_mask_intersects(65, LIST(two), 65, LIST(two)), 1);
    VALUE(answer = hybit_mask_intersects(65, LIST(two), 65, LIST(empty)), 0);
    WRONG_LENGTH(answer = hybit_mask_intersects(65, LIST(two), 5, LIST(one)), 65, 5);
}

static void masks_made(void)
{
    uint64_t out[] = {7, 7, 7}, members[] = {9, 9, 9, 9};
    static const uint64_t before[] = {7, 7, 7}, made[] = {0, 0, 7}, filled[] = {2, 1, 7}, listed[] = {1, 2, 4, 9}, untouched[] = {9, 9, 9, 9};
    static const uint64_t indices[] = {64, 1, 1}, outside[] = {3}, mask[] = {22};
    REFUSED(answer = hybit_mask_new(65, out, 1), 25);
    REFUSED(answer = hybit_mask_from_indices(3, LIST(outside), LIST(out)), 13);
    SAME(out, before);
    VALUE(answer = hybit_mask_new(65, LIST(out)), 0);
    SAME(out, made);
    VALUE(answer = hybit_mask_from_indices(65, LIST(indices), LIST(out)), 0);
    SAME(out, filled);
    REFUSED(answer = hybit_mask_indices(5, LIST(mask), members, 2), 25);
    SAME(members, untouched);
    VALUE(answer = hybit_mask_indices(5, LIST(mask), LIST(members)), 3);
    SAME(members, listed);
}

static void masks_changed(void)
{
    uint64_t mask[] = {1}, wide[] = {0, 0};
    static const uint64_t other[] = {6}, fourth[] = {8}, seven[] = {7}, four[] = {4}, one[] = {1}, last[] = {0, 1};
    REFUSED(answer = hybit_mask_set(3, LIST(mask), 3, true), 13);
    WRONG_LENGTH(answer = hybit_mask_union_assign(3, LIST(mask), 4, LIST(other)), 3, 4);
    WRONG_LENGTH(answer = hybit_mask_intersect_assign(3, LIST(mask), 3, other, 0), 1, 0);
    REFUSED(answer = hybit_mask_and_not_assign(3, LIST(mask), 3, LIST(fourth)), 12);
    SAME(mask, one);
    VALUE(answer = hybit_mask_union_assign(3, LIST(mask), 3, LIST(other)), 0);
    SAME(mask, seven);
    VALUE(answer = hybit_mask_and_not_assign(3, LIST(mask), 3, LIST(other)), 0);
    SAME(mask, one);
    VALUE(answer = hybit_mask_set(3, LIST(mask), 2, true), 0);
    VALUE(answer = hybit_mask_intersect_assign(3, LIST(mask), 3, LIST(other)), 0);
    SAME(mask, four);
    VALUE(answer = hybit_mask_or_word(65, LIST(wide), 1, UINT64_MAX), 0);
    SAME(wide, last);
    VALUE(answer = hybit_mask_or_word(65, LIST(wide), 2, UINT64_MAX), 0);
    SAME(wide, last);
    VALUE(answer = hybit_mask_set(65, LIST(wide), 64, false), 0);
    CHECK(wide[1] == 0);
}

/* Blocks of 2 and 1: ids by place, fields 0 and 1. */
static const uint8_t kinds[] = {1, 1};
static const uint64_t ids[] = {0, 1};
static const uint32_t fields[] = {0, 1}, components[] = {2, 1};
static const uint64_t offsets[] = {0, 2, 3};
#define LAYOUT LIST(kinds), LIST(ids), LIST(fields), LIST(components), LIST(offsets)
#define LAYOUT_OF(components, offsets) LIST(kinds), LIST(ids), LIST(fields), LIST(components), LIST(offsets)

static void layouts_made(void)
{
    uint64_t out[] = {7, 7, 7, 7};
    static const uint64_t before[] = {7, 7, 7, 7}, made[] = {0, 2, 3, 7}, same_ids[] = {4, 4}, one_id[] = {0};
    static const uint8_t seven[] = {1, 7};
    static const uint32_t empty[] = {2, 0}, same_fields[] = {5, 5}, wide[] = {LIMIT, 1};
    REFUSED(answer = hybit_layout_new(0, 0, 0, 0, 0, 0, 0, 0, LIST(out)), 14);
    WRONG_LENGTH(answer = hybit_layout_new(LIST(kinds), LIST(one_id), LIST(fields), LIST(components), LIST(out)), 2, 1);
    REFUSED(answer = hybit_layout_new(LIST(kinds), LIST(ids), LIST(fields), LIST(empty), LIST(out)), 15);
    REFUSED(answer = hybit_layout_new(LIST(kinds), LIST(same_ids), LIST(same_fields), LIST(components), LIST(out)), 16);
    REFUSED(answer = hybit_layout_new(LIST(seven), LIST(ids), LIST(fields), LIST(components), LIST(out)), 17);
    REFUSED(answer = hybit_layout_new(LIST(kinds), LIST(ids), LIST(fields), LIST(wide), LIST(out)), 1);
    REFUSED(answer = hybit_layout_new(LIST(kinds), LIST(ids), LIST(fields), LIST(components), out, 2), 25);
    SAME(out, before);
    VALUE(answer = hybit_layout_new(LIST(kinds), LIST(ids), LIST(fields), LIST(components), LIST(out)), 3);
    SAME(out, made);
    REFUSED(answer = hybit_kind_of(7), 17);
    VALUE(answer = hybit_kind_of(255), 255);
    VALUE(answer = hybit_kind_of(6), 6);
}

static void layouts_asked(void)
{
    uint64_t out[] = {7, 7};
    static const uint64_t before[] = {7, 7}, second[] = {4, 7}, shifted[] = {1, 1, 1}, totals[] = {0, 64, 65}, one_id[] = {0};
    static const uint32_t ones[] = {1, 1}, wide[] = {64, 1};
    VALUE(answer = hybit_layout_check(LAYOUT), 0);
    REFUSED(answer = hybit_layout_check(LAYOUT_OF(ones, shifted)), 26);
    VALUE(answer = hybit_layout_total_dofs(LAYOUT), 3);
    PAIR(pair = hybit_layout_block_range(LAYOUT, 1), 2, 3);
    NONE(pair = hybit_layout_block_range(LAYOUT, 2));
    PAIR(pair = hybit_layout_locate(LAYOUT, 1), 0, 1);
    PAIR(pair = hybit_layout_locate(LAYOUT, 2), 1, 0);
    NONE(pair = hybit_layout_locate(LAYOUT, 3));
    REFUSED(pair = hybit_layout_locate(LAYOUT_OF(ones, shifted), 1), 26);
    CHECK(pair.first == 0 && pair.second == 0);
    WRONG_LENGTH(pair = hybit_layout_locate(LIST(kinds), LIST(one_id), LIST(fields), LIST(components), LIST(offsets), 1), 2, 1);
    VALUE(answer = hybit_layout_validate_square_matrix_size(LAYOUT, 3, 3), 0);
    REFUSED(answer = hybit_layout_validate_square_matrix_size(LAYOUT, 3, 4), 18);
    REFUSED(answer = hybit_layout_field_mask(LAYOUT_OF(wide, totals), 1, out, 1), 25);
    SAME(out, before);
    VALUE(answer = hybit_layout_field_mask(LAYOUT, 1, LIST(out)), 3);
    SAME(out, second);
}

/* Entries (0,1), (1,2), side 3, and both sides of its topology. */
static const uint32_t chain_row_ptr[] = {0, 1, 2, 2}, chain_col_idx[] = {1, 2};
static const double chain_values[] = {1.5, 2.25};
#define CHAIN 3, 3, LIST(chain_row_ptr), LIST(chain_col_idx), LIST(chain_values)
static const uint32_t chain_ptr[] = {0, 1, 2, 2}, chain_column_ptr[] = {0, 0, 1, 2}, chain_words[] = {0, 0};
static const uint64_t chain_masks[] = {2, 4}, chain_column_masks[] = {1, 2};
#define CHAIN_ROWS 3, 3, LIST(chain_ptr), LIST(chain_words), LIST(chain_masks), 2
#define CHAIN_TOPOLOGY CHAIN_ROWS, 3, 3, LIST(chain_column_ptr), LIST(chain_words), LIST(chain_column_masks), 2

/* 2 by 70, pairs (0,0), (0,1), (0,69), (1,0), (1,5), the first stored twice: all counts differ. */
static const uint32_t wide_row_ptr[] = {0, 4, 6}, wide_col_idx[] = {69, 0, 0, 1, 5, 0};
static const double wide_values[] = {1, 2, 3, 4, 5, 6};
#define WIDE 2, 70, LIST(wide_row_ptr), LIST(wide_col_idx), LIST(wide_values)
static const uint32_t wide_ptr[] = {0, 2, 3}, wide_words[] = {0, 1, 0};
static const uint64_t wide_masks[] = {3, 32, 33};
#define WIDE_ROWS 2, 70, LIST(wide_ptr), LIST(wide_words), LIST(wide_masks), 5

static void one_side(void)
{
    uint32_t ptr[] = {9, 9, 9}, indices[] = {9, 9, 9, 9, 9, 9, 9};
    uint64_t masks[] = {9, 9, 9, 9, 9, 9, 9};
    static const uint32_t nines[] = {9, 9, 9}, built[] = {0, 1, 0, 0, 0, 0, 9};
    static const uint64_t built_masks[] = {3, 32, 33, 0, 0, 0, 9}, empty_word[] = {3, 0, 33};
    VALUE(answer = hybit_topology_validate(WIDE_ROWS), 0);
    REFUSED(answer = hybit_topology_validate(2, 70, LIST(wide_ptr), LIST(wide_words), LIST(empty_word), 4), 9);
    REFUSED(pair = hybit_topology_from_csr32(WIDE, LIST(ptr), indices, 5, LIST(masks)), 25);
    SAME(ptr, nines);
    CHECK(indices[0] == 9 && masks[0] == 9);
    PAIR(pair = hybit_topology_from_csr32(WIDE, LIST(ptr), LIST(indices), LIST(masks)), 3, 5);
    SAME(ptr, wide_ptr);
    SAME(indices, built);
    SAME(masks, built_masks);
    hybit_topology_stats_answer stats;
    ACCEPTED(stats = hybit_topology_stats(WIDE_ROWS));
    CHECK(stats.nrows == 2 && stats.ncols == 70 && stats.structural_nnz == 5 && stats.nonempty_words == 3);
    CHECK(stats.metadata_bytes == 48);
    CHECK(stats.average_word_nnz == 5.0 / 3.0);
    CHECK(stats.word_fill_ratio == 5.0 / 192.0);
    CHECK(stats.metadata_bytes_per_nnz == 48.0 / 5.0);
    REFUSED(stats = hybit_topology_stats(LIMIT + 1, 70, LIST(wide_ptr), LIST(wide_words), LIST(wide_masks), 5), 1);
    CHECK(stats.nrows == 0 && stats.metadata_bytes == 0 && stats.average_word_nnz == 0);
}

/* The pairs (0,1), (1,2) with (0,1), (2,0). */
static const uint32_t other_ptr[] = {0, 1, 1, 2};
static const uint64_t other_masks[] = {2, 1};
#define OTHER_ROWS 3, 3, LIST(other_ptr), LIST(chain_words), LIST(other_masks), 2

static void two_sides_refused(void)
{
    uint32_t ptr[] = {9, 9, 9, 9}, indices[] = {9, 9, 9, 9};
    uint64_t masks[] = {9, 9, 9, 9};
    static const uint32_t nines[] = {9, 9, 9, 9};
    static const uint64_t wide_nines[] = {9, 9, 9, 9};
    REFUSED(pair = hybit_topology_intersection(CHAIN_ROWS, WIDE_ROWS, LIST(ptr), LIST(indices), LIST(masks)), 22);
    REFUSED(pair = hybit_topology_union(CHAIN_ROWS, OTHER_ROWS, LIST(ptr), LIST(indices), masks, 3), 25);
    SAME(ptr, nines);
    SAME(indices, nines);
    SAME(masks, wide_nines);
}

static void two_sides(void)
{
    uint32_t ptr[4], indices[4];
    uint64_t masks[4];
    static const uint32_t common[] = {0, 1, 1, 1}, all[] = {0, 1, 2, 3}, lost[] = {0, 0, 1, 1}, differ[] = {0, 0, 1, 2};
    static const uint64_t common_masks[] = {2, 0, 0, 0}, all_masks[] = {2, 4, 1, 0}, lost_masks[] = {4, 0, 0, 0}, differ_masks[] = {4, 1, 0, 0};
    PAIR(pair = hybit_topology_intersection(CHAIN_ROWS, OTHER_ROWS, LIST(ptr), LIST(indices), LIST(masks)), 1, 1);
    SAME(ptr, common);
    SAME(masks, common_masks);
    PAIR(pair = hybit_topology_union(CHAIN_ROWS, OTHER_ROWS, LIST(ptr), LIST(indices), LIST(masks)), 3, 3);
    SAME(ptr, all);
    SAME(masks, all_masks);
    PAIR(pair = hybit_topology_and_not(CHAIN_ROWS, OTHER_ROWS, LIST(ptr), LIST(indices), LIST(masks)), 1, 1);
    SAME(ptr, lost);
    SAME(masks, lost_masks);
    PAIR(pair = hybit_topology_xor(CHAIN_ROWS, OTHER_ROWS, LIST(ptr), LIST(indices), LIST(masks)), 2, 2);
    SAME(ptr, differ);
    SAME(masks, differ_masks);
}

/* The wide matrix's topology as built, for the questions below. */
static uint32_t row_ptr[3], row_words[6], column_ptr[71], column_words[6], starts[71], order[6];
static uint64_t row_masks[6], column_masks[6];
#define BUILT LIST(row_ptr), LIST(row_words), LIST(row_masks), LIST(column_ptr), LIST(column_words), LIST(column_masks), LIST(starts)
#define WIDE_TOPOLOGY 2, 70, LIST(row_ptr), row_words, 3, row_masks, 3, 5, 70, 2, LIST(column_ptr), column_words, 4, column_masks, 4, 5

static void both_sides(void)
{
    static const uint32_t no_order[6] = {0, 0, 0, 0, 0, 0};
    static const uint64_t built_masks[] = {3, 32, 33, 0, 0, 0}, built_columns[] = {3, 1, 2, 1, 0, 0};
    hybit_build_answer built;
    memset(order, 1, sizeof order);
    memset(row_masks, 1, sizeof row_masks);
    REFUSED(built = hybit_dual_topology_from_csr32(WIDE, BUILT, order, 5), 25);
    CHECK(built.row_words == 0 && built.column_words == 0 && built.pairs == 0);
    CHECK(order[0] == 0x01010101 && row_masks[5] == 0x0101010101010101u);
    ACCEPTED(built = hybit_dual_topology_from_csr32(WIDE, BUILT, LIST(order)));
    CHECK(built.row_words == 3 && built.column_words == 4 && built.pairs == 5);
    SAME(row_ptr, wide_ptr);
    SAME(row_masks, built_masks);
    SAME(column_masks, built_columns);
    SAME(order, no_order);
    CHECK(column_ptr[0] == 0 && column_ptr[1] == 1 && column_ptr[2] == 2 && column_ptr[6] == 3 && column_ptr[70] == 4);
    VALUE(answer = hybit_dual_topology_validate(WIDE_TOPOLOGY), 0);
    REFUSED(answer = hybit_dual_topology_validate(WIDE_ROWS, CHAIN_ROWS), 9);
    hybit_dual_stats_answer stats;
    ACCEPTED(stats = hybit_dual_topology_stats(WIDE_TOPOLOGY));
    CHECK(stats.nrows == 2 && stats.ncols == 70 && stats.structural_nnz == 5);
    CHECK(stats.row_metadata_bytes == 48 && stats.column_metadata_bytes == 332 && stats.total_metadata_bytes == 380);
    CHECK(stats.metadata_bytes_per_nnz == 76.0);
}

static void rows(void)
{
    VALUE(answer = hybit_row_words(WIDE_TOPOLOGY, false, 0), 2);
    VALUE(answer = hybit_row_popcount(WIDE_TOPOLOGY, false, 0), 3);
    VALUE(answer = hybit_row_popcount(WIDE_TOPOLOGY, true, 0), 2);
    REFUSED(answer = hybit_row_popcount(WIDE_TOPOLOGY, false, 2), 13);
    VALUE(answer = hybit_row_contains(WIDE_TOPOLOGY, false, 0, 69), 1);
    VALUE(answer = hybit_row_contains(WIDE_TOPOLOGY, false, 1, 69), 0);
    VALUE(answer = hybit_row_contains(WIDE_TOPOLOGY, true, 5, 1), 1);
    VALUE(answer = hybit_row_rank(WIDE_TOPOLOGY, false, 0, 70), 3);
    REFUSED(answer = hybit_row_rank(WIDE_TOPOLOGY, false, 0, 71), 13);
    VALUE(answer = hybit_row_select(WIDE_TOPOLOGY, false, 0, 2), 69);
    NONE(answer = hybit_row_select(WIDE_TOPOLOGY, false, 0, 3));
    PAIR(pair = hybit_row_word(WIDE_TOPOLOGY, false, 0, 1), 1, 32);
    NONE(pair = hybit_row_word(WIDE_TOPOLOGY, false, 0, 2));
    REFUSED(pair = hybit_row_word(WIDE_TOPOLOGY, true, 70, 0), 13);
}

static uint64_t region[2], frontier[2], scratch[2];

static hybit_growth_answer grown(uint64_t seeds, uint64_t hops)
{
    region[0] = frontier[0] = scratch[0] = 77;
    region[1] = frontier[1] = scratch[1] = 77;
    return hybit_grow_undirected_region(CHAIN_TOPOLOGY, 3, &seeds, 1, hops, LIST(region), LIST(frontier), LIST(scratch));
}

#define GROWN(seeds, hops, left, edge, completed)                                                    \
    do {                                                                                             \
        hybit_growth_answer g = grown(seeds, hops);                                                  \
        ACCEPTED(g);                                                                                 \
        CHECK(g.hops_requested == (hops) && g.hops_completed == (completed));                        \
        CHECK(region[0] == (left) && frontier[0] == (edge) && scratch[0] == 0);                      \
        CHECK(region[1] == 77 && frontier[1] == 77 && scratch[1] == 77);                             \
    } while (0)

static void growths(void)
{
    GROWN(1, 0, 1, 1, 0);
    GROWN(1, 2, 7, 4, 2);
    GROWN(1, 3, 7, 0, 3);
    GROWN(1, 9, 7, 0, 3);
    GROWN(1, UINT64_MAX, 7, 0, 3);
    GROWN(4, 1, 6, 2, 1);
    GROWN(0, 9, 0, 0, 0);
    hybit_growth_answer g = grown(1, 2);
    CHECK(g.seed_nodes == 1 && g.region_nodes == 3 && g.frontier_nodes_visited == 2 && g.row_words_visited == 2);
    CHECK(g.column_words_visited == 1 && g.candidate_neighbor_bits == 3 && g.topology_words_visited == 3 && g.new_nodes == 2);
    g = grown(1, 9);
    CHECK(g.frontier_nodes_visited == 3 && g.row_words_visited == 2 && g.column_words_visited == 2);
    CHECK(g.candidate_neighbor_bits == 4 && g.topology_words_visited == 4 && g.new_nodes == 2);
}

/* A side of 65 without pairs, and 2 by 3. */
static const uint32_t no_words[66] = {0};
#define SQUARE_65 65, 65, LIST(no_words), 0, 0, 0, 0, 0
#define TWO_BY_THREE 2, 3, no_words, 3, 0, 0, 0, 0, 0, 3, 2, no_words, 4, 0, 0, 0, 0, 0

static void growths_refused(void)
{
    static const uint64_t one[] = {1}, stray[] = {0, 2}, last[] = {0, 1};
    static const uint64_t empty_word[] = {0, 4}, unchanged[] = {77, 77};
    hybit_growth_answer g = grown(1, 2);
    region[0] = frontier[0] = scratch[0] = 77;
    REFUSED(g = hybit_grow_undirected_region(TWO_BY_THREE, 2, LIST(one), 1, LIST(region), LIST(frontier), LIST(scratch)), 10);
    WRONG_LENGTH(g = hybit_grow_undirected_region(CHAIN_TOPOLOGY, 4, LIST(one), 1, LIST(region), LIST(frontier), LIST(scratch)), 3, 4);
    REFUSED(g = hybit_grow_undirected_region(SQUARE_65, SQUARE_65, 65, LIST(stray), 1, LIST(region), LIST(frontier), LIST(scratch)), 12);
    REFUSED(g = hybit_grow_undirected_region(SQUARE_65, SQUARE_65, 65, LIST(last), 1, region, 1, LIST(frontier), LIST(scratch)), 25);
    REFUSED(
        g = hybit_grow_undirected_region(
            3, 3, LIST(chain_ptr), LIST(chain_words), LIST(empty_word), 1, CHAIN_ROWS, 3, LIST(one), 1, LIST(region), LIST(frontier),
            LIST(scratch)),
        9);
    CHECK(g.hops_requested == 0 && g.region_nodes == 0 && g.new_nodes == 0);
    SAME(region, unchanged);
    SAME(frontier, unchanged);
    SAME(scratch, unchanged);
    ACCEPTED(g = hybit_grow_undirected_region(SQUARE_65, SQUARE_65, 65, LIST(last), 1, LIST(region), LIST(frontier), LIST(scratch)));
    SAME(region, last);
}

static void field_growths(void)
{
    static const uint64_t second[] = {2}, four[] = {0, 2, 4};
    static const uint32_t twos[] = {2, 2};
    uint64_t closed[] = {77, 77};
    region[0] = frontier[0] = scratch[0] = 77;
    hybit_field_growth_answer g;
    REFUSED(
        g = hybit_grow_field_aware_region(
            CHAIN_TOPOLOGY, LAYOUT_OF(twos, four), 3, LIST(second), 1, LIST(region), LIST(frontier), LIST(scratch)),
        18);
    WRONG_LENGTH(
        g = hybit_grow_field_aware_region(CHAIN_TOPOLOGY, LAYOUT, 4, LIST(second), 1, LIST(region), LIST(frontier), LIST(scratch)), 3, 4);
    CHECK(g.region_blocks == 0 && region[0] == 77 && frontier[0] == 77 && scratch[0] == 77);
    ACCEPTED(g = hybit_grow_field_aware_region(CHAIN_TOPOLOGY, LAYOUT, 3, LIST(second), 1, LIST(region), LIST(frontier), LIST(scratch)));
    CHECK(region[0] == 7 && frontier[0] == 4 && scratch[0] == 0);
    CHECK(g.hops_requested == 1 && g.hops_completed == 1 && g.seed_dofs == 1 && g.block_closed_seed_dofs == 2);
    CHECK(g.region_dofs == 3 && g.region_blocks == 2 && g.frontier_dofs_visited == 2 && g.row_words_visited == 2);
    CHECK(g.column_words_visited == 1 && g.candidate_neighbor_bits == 3);
    ACCEPTED(g = hybit_grow_field_aware_region(CHAIN_TOPOLOGY, LAYOUT, 3, LIST(second), 9, LIST(region), LIST(frontier), LIST(scratch)));
    CHECK(g.hops_requested == 9 && g.hops_completed == 2 && g.frontier_dofs_visited == 3 && g.column_words_visited == 2);
    WRONG_LENGTH(answer = hybit_close_to_field_blocks(LAYOUT, 4, LIST(second), LIST(closed)), 3, 4);
    CHECK(closed[0] == 77);
    VALUE(answer = hybit_close_to_field_blocks(LAYOUT, 3, LIST(second), LIST(closed)), 3);
    CHECK(closed[0] == 3 && closed[1] == 77);
}

static void owners(void)
{
    uint32_t out[] = {8, 8, 8};
    static const uint32_t before[] = {8, 8, 8}, made[] = {1, 3, 8};
    static const uint32_t agreed[] = {1, 1, 3}, large[] = {5, 9, 3}, apart[] = {1, 9, 3};
    WRONG_LENGTH(answer = hybit_field_block_owners(LAYOUT, agreed, 2, 4, LIST(out)), 3, 2);
    REFUSED(answer = hybit_field_block_owners(LAYOUT, LIST(agreed), 0, LIST(out)), 19);
    REFUSED(answer = hybit_field_block_owners(LAYOUT, LIST(large), 4, LIST(out)), 20);
    REFUSED(answer = hybit_field_block_owners(LAYOUT, LIST(apart), 4, LIST(out)), 21);
    REFUSED(answer = hybit_field_block_owners(LAYOUT, LIST(agreed), 4, out, 1), 25);
    REFUSED(answer = hybit_validate_block_owners(WIDE, LAYOUT, LIST(agreed), 4, LIST(out)), 18);
    REFUSED(answer = hybit_validate_block_owners(CHAIN, LAYOUT, LIST(apart), 4, LIST(out)), 21);
    SAME(out, before);
    VALUE(answer = hybit_field_block_owners(LAYOUT, LIST(agreed), 4, LIST(out)), 2);
    SAME(out, made);
    out[0] = out[1] = 8;
    VALUE(answer = hybit_validate_block_owners(CHAIN, LAYOUT, LIST(agreed), 4, LIST(out)), 2);
    SAME(out, made);
}

static void regions(void)
{
    uint32_t counts[] = {8, 8, 8, 8};
    static const uint32_t before[] = {8, 8, 8, 8}, made[] = {1, 3, 1, 8};
    static const uint64_t three[] = {3, 6, 2}, four[] = {3, 6, 2, 2};
    hybit_multiplicity_answer m;
    WRONG_LENGTH(m = hybit_region_multiplicity(3, 4, LIST(three), LIST(counts)), 4, 3);
    REFUSED(m = hybit_region_multiplicity(3, 65537, LIST(three), LIST(counts)), 1);
    REFUSED(m = hybit_region_multiplicity(2, 3, LIST(three), LIST(counts)), 12);
    REFUSED(m = hybit_region_multiplicity(3, 3, LIST(three), counts, 2), 25);
    SAME(counts, before);
    ACCEPTED(m = hybit_region_multiplicity(3, 3, LIST(three), LIST(counts)));
    SAME(counts, made);
    CHECK(m.total_memberships == 5 && m.overlap_nodes == 1 && m.pair_overlap_memberships == 3);
    uint32_t more[5];
    ACCEPTED(m = hybit_region_multiplicity(5, 4, LIST(four), LIST(more)));
    CHECK(m.region_count == 4 && m.node_count == 5 && m.total_memberships == 6 && m.covered_nodes == 3 && m.overlap_nodes == 1);
    CHECK(m.max_multiplicity == 4 && m.pair_overlap_memberships == 6 && m.extra_memberships == 3);
    CHECK(m.average_multiplicity_on_covered == 2.0 && m.overlap_fraction_on_covered == 1.0 / 3.0);
    VALUE(answer = hybit_weight(3, 3, LIST(three), 0, 0), 65536);
    VALUE(answer = hybit_weight(3, 3, LIST(three), 1, 1), 21845);
    VALUE(answer = hybit_weight(3, 3, LIST(three), 2, 0), 0);
    REFUSED(answer = hybit_weight(3, 3, LIST(three), 3, 0), 13);
    REFUSED(answer = hybit_weight(3, 3, LIST(three), 0, 3), 13);
}

/* What a pattern or a plan writes, one element more than it needs. */
static uint32_t nodes[4], local_ptr[5], local_cols[5], source_ptr[5], sources[5];
#define PATTERN LIST(nodes), LIST(local_ptr), LIST(local_cols)
#define PLAN PATTERN, LIST(source_ptr), LIST(sources)

static void wipe(void)
{
    memset(nodes, 1, sizeof nodes);
    memset(local_ptr, 1, sizeof local_ptr);
    memset(local_cols, 1, sizeof local_cols);
    memset(source_ptr, 1, sizeof source_ptr);
    memset(sources, 1, sizeof sources);
}

static bool wiped(const uint32_t *list, size_t from, size_t count)
{
    while (from < count && list[from] == 0x01010101)
        from++;
    return from == count;
}

static bool all_wiped(void)
{
    return wiped(nodes, 0, 4) && wiped(local_ptr, 0, 5) && wiped(local_cols, 0, 5) && wiped(source_ptr, 0, 5) && wiped(sources, 0, 5);
}

static void patterns(void)
{
    static const uint64_t both[] = {3}, longer[] = {0};
    hybit_pattern_answer p;
    wipe();
    WRONG_LENGTH(p = hybit_extract_local_submatrix_pattern(CHAIN_TOPOLOGY, 4, LIST(longer), PATTERN), 3, 4);
    REFUSED(p = hybit_extract_local_submatrix_pattern(CHAIN_TOPOLOGY, 3, LIST(both), nodes, 1, LIST(local_ptr), LIST(local_cols)), 25);
    REFUSED(p = hybit_extract_local_submatrix_pattern(TWO_BY_THREE, 2, LIST(both), PATTERN), 10);
    CHECK(all_wiped());
    ACCEPTED(p = hybit_extract_local_submatrix_pattern(CHAIN_TOPOLOGY, 3, LIST(both), PATTERN));
    CHECK(nodes[0] == 0 && nodes[1] == 1 && wiped(nodes, 2, 4));
    CHECK(local_ptr[0] == 0 && local_ptr[1] == 1 && local_ptr[2] == 1 && wiped(local_ptr, 3, 5));
    CHECK(local_cols[0] == 1 && wiped(local_cols, 1, 5));
    CHECK(p.global_nodes == 3 && p.local_nodes == 2 && p.local_nnz == 1 && p.topology_words_visited == 2);
    CHECK(p.candidate_neighbor_bits == 2 && p.kept_neighbor_bits == 1 && p.mapping_scratch_bytes == 12 && p.pattern_bytes == 24);
    CHECK(p.structural_pruning_ratio == 0.5 && p.average_local_row_nnz == 0.5);
    static const uint64_t all[] = {7};
    ACCEPTED(p = hybit_extract_local_submatrix_pattern(CHAIN_TOPOLOGY, 3, LIST(all), PATTERN));
    CHECK(p.structural_pruning_ratio == 0.0 && p.average_local_row_nnz == 2.0 / 3.0);
}

/* Entries (0,0) = 1.5, (0,0) = 2.25, (1,1) = -0.0. */
static const uint32_t twice_row_ptr[] = {0, 2, 3}, twice_col_idx[] = {0, 0, 1}, twice_ptr[] = {0, 1, 2}, twice_words[] = {0, 0};
static const double twice_values[] = {1.5, 2.25, -0.0};
static const uint64_t twice_masks[] = {1, 2};
#define TWICE 2, 2, LIST(twice_row_ptr), LIST(twice_col_idx), LIST(twice_values)
#define TWICE_ROWS 2, 2, LIST(twice_ptr), LIST(twice_words), LIST(twice_masks), 2

static void plans(void)
{
    static const uint64_t both[] = {3};
    hybit_plan_answer p;
    wipe();
    ACCEPTED(p = hybit_prepare_local_numeric_plan(TWICE_ROWS, TWICE_ROWS, TWICE, 2, LIST(both), PLAN));
    CHECK(p.local_nodes == 2 && p.local_nnz == 2 && p.source_terms == 3 && p.duplicate_source_terms == 1);
    CHECK(!p.direct_source_map && p.plan_bytes == 52);
    CHECK(nodes[0] == 0 && nodes[1] == 1 && wiped(nodes, 2, 4));
    CHECK(local_ptr[0] == 0 && local_ptr[1] == 1 && local_ptr[2] == 2 && wiped(local_ptr, 3, 5));
    CHECK(local_cols[0] == 0 && local_cols[1] == 1 && wiped(local_cols, 2, 5));
    CHECK(source_ptr[0] == 0 && source_ptr[1] == 2 && source_ptr[2] == 3 && wiped(source_ptr, 3, 5));
    CHECK(sources[0] == 0 && sources[1] == 1 && sources[2] == 2 && wiped(sources, 3, 5));
    ACCEPTED(p = hybit_prepare_local_numeric_plan(CHAIN_TOPOLOGY, CHAIN, 3, LIST(both), PLAN));
    CHECK(p.local_nodes == 2 && p.local_nnz == 1 && p.source_terms == 1 && p.duplicate_source_terms == 0);
    CHECK(p.direct_source_map && p.plan_bytes == 36);
}

/* Side 1, with the pair or entry (0,0) and without. */
static const uint32_t single[] = {0, 1}, nothing[] = {0, 0}, zero[] = {0};
static const uint64_t bit[] = {1};
static const double value[] = {1.0};
#define PAIR_ROWS 1, 1, LIST(single), LIST(zero), LIST(bit), 1
#define NO_ROWS 1, 1, LIST(nothing), 0, 0, 0, 0, 0

static void plans_refused(void)
{
    static const uint64_t both[] = {3};
    hybit_plan_answer p;
    wipe();
    REFUSED(p = hybit_prepare_local_numeric_plan(TWICE_ROWS, TWICE_ROWS, CHAIN, 2, LIST(both), PLAN), 22);
    REFUSED(p = hybit_prepare_local_numeric_plan(PAIR_ROWS, PAIR_ROWS, 1, 1, LIST(nothing), 0, 0, 0, 0, 1, LIST(bit), PLAN), 23);
    REFUSED(p = hybit_prepare_local_numeric_plan(NO_ROWS, NO_ROWS, 1, 1, LIST(single), LIST(zero), LIST(value), 1, LIST(bit), PLAN), 24);
    REFUSED(p = hybit_prepare_local_numeric_plan(TWICE_ROWS, TWICE_ROWS, TWICE, 2, LIST(both), PATTERN, LIST(source_ptr), sources, 2), 25);
    WRONG_LENGTH(p = hybit_prepare_local_numeric_plan(TWICE_ROWS, TWICE_ROWS, TWICE, 3, LIST(both), PLAN), 2, 3);
    CHECK(p.local_nodes == 0 && p.plan_bytes == 0);
    CHECK(all_wiped());
}

static void gathers(void)
{
    static const uint32_t pointers[] = {0, 2, 3}, three[] = {0, 1, 2}, third[] = {2}, late[] = {1, 1};
    static const double two[] = {1.0, 2.0}, infinite[] = {INFINITY};
    double out[] = {7.0, 7.0, 7.0};
    REFUSED(answer = hybit_gather_values(LIST(late), LIST(zero), 1, LIST(value), LIST(out)), 26);
    WRONG_LENGTH(answer = hybit_gather_values(LIST(single), LIST(zero), 1, LIST(two), LIST(out)), 1, 2);
    REFUSED(answer = hybit_gather_values(LIST(single), LIST(zero), 1, LIST(infinite), LIST(out)), 8);
    REFUSED(answer = hybit_gather_values(LIST(pointers), LIST(three), 3, LIST(twice_values), out, 1), 25);
    CHECK(out[0] == 7.0 && out[1] == 7.0 && out[2] == 7.0);
    VALUE(answer = hybit_gather_values(LIST(pointers), LIST(three), 3, LIST(twice_values), LIST(out)), 2);
    CHECK(out[0] == 3.75 && out[1] == 0.0 && !signbit(out[1]) && out[2] == 7.0);
    VALUE(answer = hybit_gather_values(LIST(single), LIST(third), 3, LIST(twice_values), LIST(out)), 1);
    CHECK(out[0] == 0.0 && signbit(out[0]));
}

/* What a prepared region writes on a side of at most 6 with at most 7 entries. */
static struct {
    uint32_t row_ptr[7], row_words[7], column_ptr[7], column_words[7], starts[7], order[7];
    uint64_t row_masks[7], column_masks[7], region[1], frontier[1], scratch[1];
    uint32_t nodes[6], local_ptr[7], local_cols[7], source_ptr[8], sources[7];
} lent;
#define LENT                                                                                                                          \
    LIST(lent.row_ptr), LIST(lent.row_words), LIST(lent.row_masks), LIST(lent.column_ptr), LIST(lent.column_words),                   \
        LIST(lent.column_masks), LIST(lent.starts), LIST(lent.order), LIST(lent.region), LIST(lent.frontier), LIST(lent.scratch),     \
        LIST(lent.nodes), LIST(lent.local_ptr), LIST(lent.local_cols), LIST(lent.source_ptr)

static void prepared(void)
{
    static const uint64_t second[] = {2};
    hybit_prepared_answer p;
    memset(&lent, 1, sizeof lent);
    ACCEPTED(p = hybit_prepare_region(CHAIN, LAYOUT, 3, LIST(second), 1, LENT, LIST(lent.sources)));
    CHECK(lent.region[0] == 7 && lent.frontier[0] == 4 && lent.scratch[0] == 0);
    CHECK(lent.nodes[0] == 0 && lent.nodes[1] == 1 && lent.nodes[2] == 2);
    CHECK(lent.local_ptr[0] == 0 && lent.local_ptr[1] == 1 && lent.local_ptr[2] == 2 && lent.local_ptr[3] == 2);
    CHECK(lent.local_cols[0] == 1 && lent.local_cols[1] == 2 && wiped(lent.local_cols, 2, 7));
    CHECK(lent.starts[0] == 0 && lent.starts[3] == 0 && wiped(lent.starts, 4, 7) && wiped(lent.order, 2, 7));
    CHECK(p.row_words == 2 && p.column_words == 2 && p.pairs == 2);
    CHECK(p.topology_nrows == 3 && p.topology_ncols == 3 && p.structural_nnz == 2);
    CHECK(p.row_metadata_bytes == 40 && p.column_metadata_bytes == 40);
    CHECK(p.hops_requested == 1 && p.hops_completed == 1 && p.seed_dofs == 1 && p.block_closed_seed_dofs == 2);
    CHECK(p.region_dofs == 3 && p.region_blocks == 2 && p.frontier_dofs_visited == 2);
    CHECK(p.row_words_visited == 2 && p.column_words_visited == 1 && p.candidate_neighbor_bits == 3);
    CHECK(p.global_nodes == 3 && p.local_nodes == 3 && p.local_nnz == 2 && p.topology_words_visited == 2);
    CHECK(p.pattern_candidate_bits == 2 && p.kept_neighbor_bits == 2 && p.mapping_scratch_bytes == 12 && p.pattern_bytes == 36);
    CHECK(p.plan_local_nodes == 3 && p.plan_local_nnz == 2 && p.source_terms == 2 && p.duplicate_source_terms == 0);
    CHECK(p.direct_source_map && p.plan_bytes == 56);
}

/* Side 6, blocks of 2 and 4, one pair stored twice; every field is that of the call for its step. */
static const uint32_t six_row_ptr[] = {0, 3, 4, 4, 6, 6, 7}, six_col_idx[] = {0, 0, 3, 2, 5, 4, 0}, six_components[] = {2, 4};
static const double six_values[] = {1, 2, 3, 4, 5, 6, 7};
static const uint64_t six_offsets[] = {0, 2, 6};
#define SIX 6, 6, LIST(six_row_ptr), LIST(six_col_idx), LIST(six_values)
#define SIX_LAYOUT LAYOUT_OF(six_components, six_offsets)
#define SIX_TOPOLOGY                                                                                                                     \
    6, 6, LIST(lent.row_ptr), lent.row_words, (size_t)p.row_words, lent.row_masks, (size_t)p.row_words, (size_t)p.pairs, 6, 6,           \
        LIST(lent.column_ptr), lent.column_words, (size_t)p.column_words, lent.column_masks, (size_t)p.column_words, (size_t)p.pairs

static void prepared_by_steps(void)
{
    static const uint64_t first[] = {1};
    static const uint32_t six_sources[] = {0, 1, 2, 3, 5, 4, 6};
    hybit_prepared_answer p;
    ACCEPTED(p = hybit_prepare_region(SIX, SIX_LAYOUT, 6, LIST(first), 9, LENT, LIST(lent.sources)));
    SAME(lent.sources, six_sources);
    hybit_dual_stats_answer t = hybit_dual_topology_stats(SIX_TOPOLOGY);
    ACCEPTED(t);
    CHECK(p.row_words == 4 && p.column_words == 5 && p.pairs == 6 && p.structural_nnz == 6);
    CHECK(p.topology_nrows == t.nrows && p.topology_ncols == t.ncols);
    CHECK(p.row_metadata_bytes == t.row_metadata_bytes && p.column_metadata_bytes == t.column_metadata_bytes);
    CHECK(p.row_metadata_bytes == 76 && p.column_metadata_bytes == 88);
    hybit_field_growth_answer g =
        hybit_grow_field_aware_region(SIX_TOPOLOGY, SIX_LAYOUT, 6, LIST(first), 9, LIST(region), LIST(frontier), LIST(scratch));
    CHECK(p.hops_requested == 9 && p.hops_completed == g.hops_completed && g.hops_completed == 2);
    CHECK(p.seed_dofs == g.seed_dofs && p.block_closed_seed_dofs == g.block_closed_seed_dofs && p.region_dofs == g.region_dofs);
    CHECK(p.region_blocks == g.region_blocks && p.frontier_dofs_visited == g.frontier_dofs_visited);
    CHECK(p.row_words_visited == g.row_words_visited && p.column_words_visited == g.column_words_visited);
    CHECK(p.candidate_neighbor_bits == g.candidate_neighbor_bits && g.row_words_visited == 4 && g.column_words_visited == 5);
    static const uint64_t all[] = {63};
    static uint32_t six_nodes[6], six_ptr[7], six_cols[6], six_source_ptr[7], six_terms[7];
    hybit_pattern_answer l =
        hybit_extract_local_submatrix_pattern(SIX_TOPOLOGY, 6, LIST(all), LIST(six_nodes), LIST(six_ptr), LIST(six_cols));
    CHECK(p.global_nodes == l.global_nodes && p.local_nodes == l.local_nodes && p.local_nnz == l.local_nnz);
    CHECK(p.topology_words_visited == l.topology_words_visited && p.pattern_candidate_bits == l.candidate_neighbor_bits);
    CHECK(p.kept_neighbor_bits == l.kept_neighbor_bits && p.mapping_scratch_bytes == l.mapping_scratch_bytes);
    CHECK(p.pattern_bytes == l.pattern_bytes && l.pattern_bytes == 24 + 28 + 24);
    hybit_plan_answer n = hybit_prepare_local_numeric_plan(
        SIX_TOPOLOGY, SIX, 6, LIST(all), LIST(six_nodes), LIST(six_ptr), LIST(six_cols), LIST(six_source_ptr), LIST(six_terms));
    CHECK(p.plan_local_nodes == n.local_nodes && p.plan_local_nnz == n.local_nnz && p.source_terms == n.source_terms);
    CHECK(p.duplicate_source_terms == 1 && n.duplicate_source_terms == 1 && !p.direct_source_map && p.plan_bytes == n.plan_bytes);
    SAME(six_terms, six_sources);
}

/* Without a hop the region is the first block: a part of the nodes, and of its rows a part of the bits. */
static void prepared_part(void)
{
    static const uint64_t first[] = {1};
    hybit_prepared_answer p;
    ACCEPTED(p = hybit_prepare_region(SIX, SIX_LAYOUT, 6, LIST(first), 0, LENT, LIST(lent.sources)));
    CHECK(p.global_nodes == 6 && p.local_nodes == 2 && p.local_nnz == 1 && p.pattern_candidate_bits == 3 && p.kept_neighbor_bits == 1);
    CHECK(p.source_terms == 2 && lent.local_ptr[2] == 1 && lent.local_cols[0] == 0 && lent.source_ptr[1] == 2);
    CHECK(lent.nodes[1] == 1 && lent.nodes[2] == 0 && lent.sources[1] == 1 && lent.sources[2] == 0);
    hybit_growth_answer g =
        hybit_grow_undirected_region(SIX_TOPOLOGY, 6, LIST(first), 1, LIST(region), LIST(frontier), LIST(scratch));
    ACCEPTED(g);
    CHECK(region[0] == 41 && frontier[0] == 40 && g.candidate_neighbor_bits == 4 && g.topology_words_visited == 2);
}

static void prepared_refused(void)
{
    static const uint64_t second[] = {2};
    static unsigned char before[sizeof lent];
    hybit_prepared_answer p;
    memset(&lent, 1, sizeof lent);
    memset(before, 1, sizeof before);
    REFUSED(p = hybit_prepare_region(CHAIN, SIX_LAYOUT, 3, LIST(second), 1, LENT, LIST(lent.sources)), 18);
    WRONG_LENGTH(p = hybit_prepare_region(CHAIN, LAYOUT, 4, LIST(second), 1, LENT, LIST(lent.sources)), 3, 4);
    REFUSED(p = hybit_prepare_region(CHAIN, LAYOUT, 3, LIST(second), 1, LENT, lent.sources, 1), 25);
    CHECK(p.row_words == 0 && p.hops_requested == 0 && p.local_nnz == 0 && p.plan_bytes == 0);
    CHECK(!memcmp(&lent, before, sizeof lent));
}

static void jobs(void)
{
    static const char input[] = "size=3\nblocks=1,1,1\nptr=0,1,2,2\ncols=1,2\nseeds=0\nhops=1\n";
    static const char bad[] = "size=03\nblocks=1,1,1\nptr=0,1,2,2\ncols=1,2\nseeds=0\nhops=1\n";
    static const char output[] = "region=0,1\nfrontier=1\ncompleted=1\nlocal_ptr=0,1,1\nlocal_cols=1\n";
    uint8_t out[80] = {'#', '#'};
    REFUSED(answer = hybit_peak_job((const uint8_t *)input, sizeof input - 1, out, sizeof output - 2), 25);
    CHECK(out[0] == '#' && out[1] == '#' && out[2] == 0);
    VALUE(answer = hybit_peak_job((const uint8_t *)input, sizeof input - 1, out, sizeof out), sizeof output - 1);
    CHECK(!memcmp(out, output, sizeof output - 1) && out[sizeof output - 1] == 0);
    VALUE(answer = hybit_peak_job((const uint8_t *)bad, sizeof bad - 1, out, sizeof out), 11);
    CHECK(!memcmp(out, "refused=27\n", 11) && out[11] == output[11]);
}

int main(void)
{
    words();
    matrices();
    mask_questions();
    masks_made();
    masks_changed();
    layouts_made();
    layouts_asked();
    one_side();
    two_sides_refused();
    two_sides();
    both_sides();
    rows();
    growths();
    growths_refused();
    field_growths();
    owners();
    regions();
    patterns();
    plans();
    plans_refused();
    gathers();
    prepared();
    prepared_by_steps();
    prepared_part();
    prepared_refused();
    jobs();
    printf("%u checks, %u failed\n", checks, failed);
    return failed ? 1 : 0;
}
