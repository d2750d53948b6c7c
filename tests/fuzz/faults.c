/* What is wrong with a call's values: lengths, single elements, numbers, whole lists. */
#include <string.h>

#include "fuzz.h"

static uint64_t odd_number(uint64_t was)
{
    static const uint64_t odd[] = {0,         1,         63,        64,        65,        1 << 20,          (1 << 20) + 1,
                                   1 << 24,   (1 << 24) + 1, 65536, 65537,     UINT32_MAX, (uint64_t)1 << 32, (uint64_t)1 << 63,
                                   UINT64_MAX, UINT64_MAX - 1, 255};
    switch (below(6)) {
    case 0: return was + 1;
    case 1: return was - 1;
    case 2: return was ^ (uint64_t)1 << below(64);
    case 3: return below(20);
    case 4: return random_bits();
    default: return odd[below(sizeof odd / sizeof *odd)];
    }
}

/* The list anew with another length: its front is kept, what is added is random or zero. */
static void resize(struct value *v, size_t width, size_t count)
{
    size_t most = LIST_BYTES / width, kept;
    count = count < most ? count : most;
    kept = v->count < count ? v->count : count;
    unsigned char *bytes = (unsigned char *)new_list(count * width + 8);
    bool zeros = chance(50);
    for (size_t k = 0; k < count * width; k += 8) {
        uint64_t bits = zeros ? 0 : random_bits();
        memcpy(bytes + k, &bits, 8);
    }
    if (kept)
        memcpy(bytes, v->bytes, kept * width);
    v->bytes = bytes;
    v->count = count;
}

static void change_element(struct value *v, size_t width, size_t at)
{
    static const char text[] = "0123456789,,==\n\n";
    uint64_t element = 0;
    memcpy(&element, v->bytes + at * width, width);
    if (width == 1 && chance(50))
        element = (uint64_t)text[below(sizeof text - 1)];
    else if (width == 8 && chance(15))
        element |= 0x7ff0000000000000u; /* as a double: infinite or not a number */
    else
        element = odd_number(element);
    memcpy(v->bytes + at * width, &element, width);
}

/* One element in the place of another, or both exchanged. */
static void move_elements(struct value *v, size_t width, size_t a, size_t b)
{
    unsigned char held[8];
    memcpy(held, v->bytes + a * width, width);
    memmove(v->bytes + a * width, v->bytes + b * width, width);
    if (chance(50))
        memcpy(v->bytes + b * width, held, width);
}

static void random_list(struct value *v, size_t width)
{
    size_t many = chance(2) ? below(100000) : below(24);
    v->count = 0;
    resize(v, width, many);
    if (chance(50))
        for (size_t k = 0; k < v->count; k++) {
            uint64_t element = below(8);
            memcpy(v->bytes + k * width, &element, width);
        }
}

/* Another list of the call with elements of the same size. */
static void other_list(const struct function *f, struct value *values, size_t i)
{
    size_t j = below(f->count), width = f->parameters[i].width;
    if (f->parameters[j].form == NUMBER || f->parameters[j].width != width || values[j].huge)
        return;
    const struct value from = values[j];
    values[i].count = 0;
    resize(values + i, width, from.count);
    if (from.count)
        memcpy(values[i].bytes, from.bytes, from.count * width);
}

static void spoil_list(const struct function *f, struct value *values, size_t i)
{
    struct value *v = values + i;
    size_t width = f->parameters[i].width, n = v->count;
    switch (below(10)) {
    case 0: resize(v, width, n ? n - 1 : 0); break;
    case 1: resize(v, width, n + 1 + below(3)); break;
    case 2: resize(v, width, below(n)); break;
    case 3: resize(v, width, 0); break;
    case 4: random_list(v, width); break;
    case 5: other_list(f, values, i); break;
    case 6:
        if (n > 1)
            move_elements(v, width, below(n), below(n));
        break;
    default:
        if (n)
            change_element(v, width, chance(30) ? n - 1 : below(n));
    }
}

/* About as many elements as 01's limit of entries. */
static void huge_list(struct value *v)
{
    v->bytes = 0;
    v->huge = true;
    v->count = HUGE_COUNT - below(3);
}

static uint64_t within(const struct parameter *p, uint64_t number)
{
    return p->flag ? number & 1 : p->width < 8 ? number & (((uint64_t)1 << 8 * p->width) - 1) : number;
}

void spoil(const struct function *f, struct value *values, bool small)
{
    size_t i = below(f->count);
    bool one = false;
    for (size_t k = 0; k < f->count; k++)
        one |= values[k].huge;
    if (!f->count || values[i].huge)
        return;
    if (f->parameters[i].form == NUMBER)
        values[i].number = within(f->parameters + i, odd_number(values[i].number));
    else if (!one && !small && !below(300))
        huge_list(values + i);
    else
        spoil_list(f, values, i);
}

void arbitrary(const struct function *f, struct value *values)
{
    for (size_t i = 0; i < f->count; i++) {
        values[i].null = chance(50);
        values[i].number = within(f->parameters + i, odd_number(below(100)));
        if (f->parameters[i].form != NUMBER)
            random_list(values + i, f->parameters[i].width);
    }
}
