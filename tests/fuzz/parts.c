/* Values with which a call is accepted, mostly: a matrix, its topology by the library's own call, a layout, masks, a plan.
 *
 * A parameter is known by its name. What has an unknown name gets arbitrary values, so a new call is fuzzed at once; a name added here
 * takes it deeper.
 */
#include <stdio.h>
#include <string.h>

#include "../../include/hybit_matrix.h"
#include "fuzz.h"

struct part {
    const char *name;
    uint64_t number;
    const void *list;
    size_t count;
    size_t width;
};

/* What parameters may be given: numbers and lists; and of lists to write, how long they are. */
static struct part parts[96];
static size_t part_count;
static struct part rooms[96];
static size_t room_count;

static void number_is(const char *name, uint64_t number)
{
    parts[part_count++] = (struct part){name, number, 0, 0, 0};
}

static void list_is(const char *name, const void *list, size_t count, size_t width)
{
    parts[part_count++] = (struct part){name, 0, list, count, width};
}

static void room_is(const char *name, size_t count)
{
    rooms[room_count++] = (struct part){name, 0, 0, count, 0};
}

static bool has(const struct function *f, const char *name, enum form form)
{
    for (size_t i = 0; i < f->count; i++)
        if (f->parameters[i].form == form && !strcmp(f->parameters[i].name, name))
            return true;
    return false;
}

/* The sizes of this case. */
static size_t nrows, ncols, entries, mask_words;

static size_t some_side(bool small)
{
    static const size_t edges[] = {63, 64, 65, 127, 128, 129, 192, 193};
    uint64_t kind = below(200);
    if (kind < 120)
        return 1 + below(8);
    if (kind < 160)
        return 9 + below(62);
    if (kind < 180)
        return edges[below(8)];
    if (kind < 188)
        return 0;
    if (kind < 198 || small)
        return 71 + below(small ? 100 : 330);
    return 1000 + below(20000);
}

static double some_value(void)
{
    static const double plain[] = {0.0, -0.0, 1.5, 2.25, -3.0, 1e308, 5e-324, 0.1};
    if (chance(80))
        return plain[below(8)];
    uint64_t bits = random_bits() & 0xbfffffffffffffffu; /* an exponent that is not the largest */
    double value;
    memcpy(&value, &bits, sizeof value);
    return value;
}

struct matrix {
    uint32_t *row_ptr, *col_idx;
    double *values;
    size_t entries;
};

/* One row's columns: scattered, or beside the diagonal; rising, falling or as they came; with repeated ones. */
static size_t some_row(size_t row, size_t most, uint32_t *columns)
{
    size_t count = below(most + 1), order = below(3), near = below(2);
    for (size_t k = 0; k < count; k++) {
        size_t column = near ? row + below(5) : below(ncols);
        columns[k] = (uint32_t)(column < ncols ? column : below(ncols));
        for (size_t j = k; order && j > 0; j--) {
            bool wrong = order == 1 ? columns[j] < columns[j - 1] : columns[j] > columns[j - 1];
            if (!wrong)
                break;
            uint32_t before = columns[j - 1];
            columns[j - 1] = columns[j];
            columns[j] = before;
        }
    }
    return count;
}

static struct matrix some_matrix(void)
{
    size_t most = ncols ? 1 + below(nrows > 500 ? 8 : 5) : 0;
    if (ncols && nrows && nrows < 100 && chance(10))
        most = 100 / nrows + below(100);
    struct matrix m;
    m.row_ptr = (uint32_t *)new_list((nrows + 1) * 4);
    m.col_idx = (uint32_t *)new_list((nrows * most + 1) * 4);
    m.entries = 0;
    for (size_t row = 0; row < nrows; row++) {
        m.row_ptr[row] = (uint32_t)m.entries;
        m.entries += some_row(row, most, m.col_idx + m.entries);
    }
    m.row_ptr[nrows] = (uint32_t)m.entries;
    m.values = (double *)new_list((m.entries + 1) * 8);
    for (size_t k = 0; k < m.entries; k++)
        m.values[k] = some_value();
    return m;
}

struct topology {
    uint32_t *ptr[2], *indices[2];
    uint64_t *masks[2];
    hybit_build_answer built;
};

static struct topology topology_of(const struct matrix *m)
{
    struct topology t;
    size_t n = m->entries;
    for (int side = 0; side < 2; side++) {
        t.ptr[side] = (uint32_t *)new_list(((side ? ncols : nrows) + 1) * 4);
        t.indices[side] = (uint32_t *)new_list((n + 1) * 4);
        t.masks[side] = (uint64_t *)new_list((n + 1) * 8);
    }
    uint32_t *starts = (uint32_t *)new_list((ncols + 1) * 4);
    uint32_t *order = (uint32_t *)new_list((n + 1) * 4);
    t.built = hybit_dual_topology_from_csr32(
        nrows, ncols, m->row_ptr, nrows + 1, m->col_idx, n, m->values, n, t.ptr[0], nrows + 1, t.indices[0], n, t.masks[0], n,
        t.ptr[1], ncols + 1, t.indices[1], n, t.masks[1], n, starts, ncols + 1, order, n);
    return t;
}

static void add_matrix(const struct matrix *m)
{
    entries = m->entries;
    number_is("matrix_nrows", nrows);
    number_is("matrix_ncols", ncols);
    list_is("row_ptr", m->row_ptr, nrows + 1, 4);
    list_is("col_idx", m->col_idx, entries, 4);
    list_is("values", m->values, entries, 8);
    number_is("source_value_len", entries);
}

/* The matrix again with a column changed or all entries new: then pairs and entries differ. */
static struct matrix changed_matrix(const struct matrix *m)
{
    if (!m->entries || chance(30))
        return some_matrix();
    struct matrix other = *m;
    other.col_idx = (uint32_t *)new_list(m->entries * 4);
    memcpy(other.col_idx, m->col_idx, m->entries * 4);
    other.col_idx[below(m->entries)] = (uint32_t)below(ncols);
    return other;
}

static void add_topology(const struct matrix *m)
{
    struct matrix other = chance(85) ? *m : changed_matrix(m);
    struct topology t = topology_of(&other);
    size_t rows = t.built.row_words, columns = t.built.column_words;
    list_is("row_word_ptr", t.ptr[0], nrows + 1, 4);
    list_is("row_word_indices", t.indices[0], rows, 4);
    list_is("word_indices", t.indices[0], rows, 4);
    list_is("row_masks", t.masks[0], rows, 8);
    list_is("masks", t.masks[0], rows, 8);
    number_is("structural_nnz", t.built.pairs);
    number_is("column_nrows", ncols);
    number_is("column_ncols", nrows);
    list_is("column_word_ptr", t.ptr[1], ncols + 1, 4);
    list_is("column_word_indices", t.indices[1], columns, 4);
    list_is("column_masks", t.masks[1], columns, 8);
    number_is("column_structural_nnz", t.built.pairs);
}

/* Two sides for the set operations, and room for what they give. */
static void add_two_sides(const struct matrix *m)
{
    static const char *const names[2][4] = {{"ptr_a", "words_a", "masks_a", "pairs_a"}, {"ptr_b", "words_b", "masks_b", "pairs_b"}};
    size_t both = 0;
    for (int k = 0; k < 2; k++) {
        struct matrix other = changed_matrix(m);
        struct topology t = topology_of(k ? &other : m);
        list_is(names[k][0], t.ptr[0], nrows + 1, 4);
        list_is(names[k][1], t.indices[0], t.built.row_words, 4);
        list_is(names[k][2], t.masks[0], t.built.row_words, 8);
        number_is(names[k][3], t.built.pairs);
        both += t.built.row_words;
    }
    number_is("nrows_b", nrows);
    number_is("ncols_b", ncols);
    room_is("word_indices", both);
    room_is("masks", both);
}

static size_t set_bits(const uint64_t *words, size_t count)
{
    size_t all = 0;
    for (size_t k = 0; k < count; k++)
        for (uint64_t w = words[k]; w; w &= w - 1)
            all++;
    return all;
}

static const uint64_t *some_mask(size_t len)
{
    size_t count = (len + 63) / 64;
    uint64_t *words = (uint64_t *)new_list((count + 1) * 8);
    unsigned few = (unsigned)below(4);
    for (size_t k = 0; k < count; k++) {
        words[k] = few == 3 ? UINT64_MAX : few == 2 ? 0 : random_bits() & random_bits();
        if (few == 2 && chance(30))
            words[k] = (uint64_t)1 << below(64);
    }
    if (len % 64)
        words[count - 1] &= ((uint64_t)1 << len % 64) - 1;
    return words;
}

/* One owner for all nodes of a block. */
static void add_owners(const uint32_t *components, size_t blocks, size_t total)
{
    uint32_t *owners = (uint32_t *)new_list((total + 1) * 4);
    size_t at = 0;
    for (size_t k = 0; k < blocks; k++)
        for (size_t left = components[k], owner = below(4); left; left--)
            owners[at++] = (uint32_t)owner;
    list_is("dof_owners", owners, total, 4);
}

/* A layout whose total is the side, mostly. Returns how many blocks it has. */
static size_t add_layout(void)
{
    static const uint8_t kinds[] = {1, 2, 3, 4, 5, 6, 255};
    size_t total = chance(94) ? nrows : nrows + 1 + below(3), most = 1 + below(4), order = below(4), n = 0;
    uint8_t *kind = (uint8_t *)new_list(total + 1);
    uint64_t *id = (uint64_t *)new_list((total + 1) * 8);
    uint32_t *field = (uint32_t *)new_list((total + 1) * 4);
    uint32_t *components = (uint32_t *)new_list((total + 1) * 4);
    uint64_t *offsets = (uint64_t *)new_list((total + 2) * 8);
    for (size_t at = 0; at < total; at += components[n++]) {
        size_t count = 1 + below(most);
        components[n] = (uint32_t)(count < total - at ? count : total - at);
        kind[n] = chance(70) ? 1 : kinds[below(7)];
        id[n] = order == 0 ? n : order == 1 ? total - n : order == 2 ? n / 2 : random_bits();
        field[n] = order == 2 ? (uint32_t)(n % 2) : (uint32_t)below(3);
    }
    hybit_layout_new(kind, n, id, n, field, n, components, n, offsets, n + 1);
    list_is("entity_kinds", kind, n, 1);
    list_is("entity_ids", id, n, 8);
    list_is("field_ids", field, n, 4);
    list_is("components", components, n, 4);
    list_is("offsets", offsets, n + 1, 8);
    add_owners(components, n, total);
    return n;
}

/* The regions of region_multiplicity and weight. */
static void add_regions(void)
{
    size_t count = below(6);
    uint64_t *words = (uint64_t *)new_list((count * mask_words + 1) * 8);
    for (size_t k = 0; k < count; k++)
        memcpy(words + k * mask_words, some_mask(nrows), mask_words * 8);
    number_is("node_count", nrows);
    number_is("region_count", count);
    list_is("words", words, count * mask_words, 8);
    number_is("region", below(count));
    room_is("counts", nrows);
}

/* A plan: pointers and sources of the matrix's own entries, by rows. */
static void add_plan(const struct matrix *m)
{
    size_t pairs = m->entries ? 1 + below(m->entries) : 0;
    uint32_t *pointers = (uint32_t *)new_list((pairs + 1) * 4);
    uint32_t *sources = (uint32_t *)new_list((m->entries + 1) * 4);
    size_t count = chance(50) ? pairs : m->entries;
    for (size_t k = 0; k <= pairs; k++)
        pointers[k] = (uint32_t)(k < pairs ? k : count);
    for (size_t k = 0; k < count; k++)
        sources[k] = (uint32_t)below(m->entries);
    list_is("source_ptr", pointers, pairs + 1, 4);
    list_is("source_indices", sources, count, 4);
    room_is("out", pairs);
}

static size_t print_list(char *text, const char *name, const uint32_t *list, size_t count)
{
    size_t at = (size_t)sprintf(text, "%s=", name);
    for (size_t k = 0; k < count; k++)
        at += (size_t)sprintf(text + at, k ? ",%u" : "%u", (unsigned)list[k]);
    return at + (size_t)sprintf(text + at, "\n");
}

static void add_job(const struct matrix *m)
{
    size_t size = nrows < 300 ? nrows : 0;
    char *text = (char *)new_list(64 + 16 * (size + m->entries + 8));
    uint32_t *blocks = (uint32_t *)new_list((size + 1) * 4);
    for (size_t k = 0; k < size; k++)
        blocks[k] = 1;
    size_t at = (size_t)sprintf(text, "size=%u\n", (unsigned)size);
    at += print_list(text + at, "blocks", blocks, size);
    at += print_list(text + at, "ptr", m->row_ptr, size + 1);
    at += print_list(text + at, "cols", m->col_idx, m->row_ptr[size]);
    uint32_t seeds[2] = {(uint32_t)below(size), (uint32_t)below(size)};
    at += print_list(text + at, "seeds", seeds, below(3));
    at += (size_t)sprintf(text + at, "hops=%u\n", (unsigned)below(5));
    list_is("input", text, at, 1);
    room_is("out", 20000);
}

/* Lists to write: of a pattern and a plan either the upper bounds, or what this region needs at most. */
static void add_rooms(size_t members, size_t blocks)
{
    bool bounds = chance(70);
    size_t nodes = bounds ? nrows : members, pairs = entries;
    static const char *const by_entry[] = {"word_indices",  "masks", "row_word_indices", "row_masks",    "column_word_indices",
                                           "column_masks", "order", "col_idx",          "local_col_idx", "source_indices"};
    for (size_t k = 0; k < sizeof by_entry / sizeof *by_entry; k++)
        room_is(by_entry[k], pairs);
    room_is("source_ptr", pairs + 1);
    room_is("row_word_ptr", nrows + 1);
    room_is("column_word_ptr", ncols + 1);
    room_is("starts", ncols + 1);
    room_is("global_nodes", nodes);
    room_is("row_ptr", nodes + 1);
    room_is("local_row_ptr", nodes + 1);
    room_is("region", mask_words);
    room_is("frontier", mask_words);
    room_is("scratch", mask_words);
    room_is("out", mask_words);
    room_is("out", blocks);
    room_is("out", blocks + 1);
    room_is("out", members);
}

static void add_numbers(void)
{
    static const uint32_t codes[] = {0, 1, 2, 3, 4, 5, 6, 7, 255, 256, 257};
    number_is("nrows", nrows);
    number_is("ncols", ncols);
    number_is("len", nrows);
    number_is("other_len", nrows);
    number_is("hops", chance(90) ? below(6) : random_bits());
    number_is("ranks", 4);
    number_is("field_id", below(3));
    number_is("code", codes[below(11)]);
    number_is("index", below(nrows + 1));
    number_is("dof", below(nrows + 1));
    number_is("node", below(nrows));
    number_is("number", below(nrows < ncols ? nrows : ncols));
    number_is("col", below(ncols + 1));
    number_is("k", below(2));
    number_is("ordinal", below(3));
    number_is("offset", below(65));
    number_is("word_index", below(mask_words + 1));
    number_is("mask", random_bits() & random_bits());
    number_is("bits", random_bits());
}

static void add_masks(const uint64_t *words)
{
    uint64_t *indices = (uint64_t *)new_list(8 * 8);
    for (size_t k = 0; k < 8; k++)
        indices[k] = below(nrows);
    list_is("words", words, mask_words, 8);
    list_is("other", some_mask(nrows), mask_words, 8);
    list_is("indices", indices, nrows ? below(9) : 0, 8);
}

/* A matrix, and what else of it the function takes. */
static void make_matrix(const struct function *f)
{
    struct matrix m = some_matrix();
    add_matrix(&m);
    if (has(f, "ptr_a", READ))
        add_two_sides(&m);
    if (has(f, "source_ptr", READ))
        add_plan(&m);
    if (has(f, "input", READ))
        add_job(&m);
    if (has(f, "row_word_ptr", READ))
        add_topology(&m);
}

/* Only what the function takes is made. */
static void make_parts(const struct function *f, bool small)
{
    bool layout = has(f, "entity_kinds", READ);
    bool matrix = has(f, "row_ptr", READ) || has(f, "row_word_ptr", READ) || has(f, "ptr_a", READ) || has(f, "source_ptr", READ) ||
                  has(f, "input", READ);
    part_count = room_count = 0;
    nrows = some_side(small);
    if (!matrix && !layout && !small && chance(1))
        nrows = (1 << 20) - below(3); /* masks up to the limit */
    ncols = chance(92) ? nrows : some_side(true);
    mask_words = (nrows + 63) / 64;
    entries = 0;
    add_numbers();
    if (matrix)
        make_matrix(f);
    size_t blocks = layout ? add_layout() : 0;
    if (has(f, "region_count", NUMBER))
        add_regions();
    const uint64_t *words = some_mask(nrows);
    add_masks(words);
    add_rooms(set_bits(words, mask_words), blocks);
}

static const struct part *found(const struct part *list, size_t count, const char *name)
{
    for (size_t k = 0; k < count; k++)
        if (!strcmp(list[k].name, name))
            return list + k;
    return 0;
}

/* A list to write: as long as its name says, longer, or for a name of several meanings as long as one of them says. */
static size_t some_room(const char *name)
{
    size_t longest = 0, one = 0, seen = 0;
    for (size_t k = 0; k < room_count; k++)
        if (!strcmp(rooms[k].name, name)) {
            longest = rooms[k].count > longest ? rooms[k].count : longest;
            if (!below(++seen))
                one = rooms[k].count;
        }
    return seen < 2 ? longest : chance(50) ? one : longest + below(4);
}

static void fill(struct value *v, size_t width, size_t count)
{
    size_t most = LIST_BYTES / width;
    v->count = count < most ? count : most;
    v->bytes = (unsigned char *)new_list(v->count * width + 8);
    for (size_t k = 0; k < v->count * width; k += 8) {
        uint64_t bits = random_bits();
        memcpy(v->bytes + k, &bits, 8);
    }
}

static void take(const struct parameter *p, struct value *v)
{
    const struct part *part = found(parts, part_count, p->name);
    bool lent = p->form == LENT && found(rooms, room_count, p->name);
    v->null = chance(50);
    if (p->form == NUMBER) {
        v->number = p->flag ? below(2) : part ? part->number : below(10);
    } else if (lent || !part || part->width != p->width) {
        fill(v, p->width, lent ? some_room(p->name) + (chance(15) ? below(5) : 0) : below(10));
    } else {
        fill(v, p->width, part->count);
        memcpy(v->bytes, part->list, v->count * p->width);
    }
}

void plausible(const struct function *f, struct value *values, bool small)
{
    make_parts(f, small);
    for (size_t i = 0; i < f->count; i++)
        take(f->parameters + i, values + i);
}
