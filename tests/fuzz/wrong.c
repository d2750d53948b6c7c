/* Functions that do what no call may. The fuzz run must report each (--self-test). */
#include "fuzz.h"

static const struct parameter reads[] = {{"len", NUMBER, 8, 0}, {"words", READ, 8, 0}};
static const struct parameter writes[] = {{"len", NUMBER, 8, 0}, {"out", LENT, 8, 0}};

static const struct outcome accepted = {0, true, 0, 0, false, false};
static const struct outcome short_list = {25, false, 0, 0, false, false};

static volatile uint64_t sink;

static struct outcome read_past(const struct argument *a)
{
    if (a[1].list)
        sink = ((volatile uint64_t *)a[1].list)[a[1].count];
    return accepted;
}

static struct outcome read_before(const struct argument *a)
{
    if (a[1].list)
        sink = ((volatile uint64_t *)a[1].list)[-1];
    return accepted;
}

static struct outcome write_past(const struct argument *a)
{
    if (a[1].list)
        ((volatile uint64_t *)a[1].list)[a[1].count] = 7;
    return accepted;
}

static struct outcome write_element(const struct argument *a)
{
    if (a[1].count)
        ((volatile uint64_t *)a[1].list)[0] ^= 1;
    return accepted;
}

/* Needs one element, and writes the last. */
static struct outcome write_last(const struct argument *a)
{
    if (!a[1].count)
        return short_list;
    ((volatile uint64_t *)a[1].list)[a[1].count - 1] ^= 1;
    return accepted;
}

static struct outcome write_and_refuse(const struct argument *a)
{
    write_element(a);
    return short_list;
}

static struct outcome run_forever(const struct argument *a)
{
    while (a)
        sink++;
    return accepted;
}

/* Takes the stack to its end: 2^40 frames. */
static uint64_t descend(uint64_t depth)
{
    volatile uint64_t here = depth;
    return depth >> 40 ? here : descend(depth + 1) + here;
}

static struct outcome recurse(const struct argument *a)
{
    sink = descend(a[0].number & 1);
    return accepted;
}

static struct outcome refuse_28(const struct argument *a)
{
    (void)a;
    return (struct outcome){28, false, 0, 0, false, false};
}

static struct outcome refuse_with_figures(const struct argument *a)
{
    (void)a;
    return (struct outcome){9, false, 3, 4, false, false};
}

static struct outcome refuse_with_fields(const struct argument *a)
{
    (void)a;
    return (struct outcome){9, false, 0, 0, true, false};
}

const struct wrong wrongs[] = {
    {{"read_past", reads, 2, read_past, 0}, END, "fault"},
    {{"read_before", reads, 2, read_before, 0}, START, "fault"},
    {{"write_past", writes, 2, write_past, 0}, END, "fault"},
    {{"write_slack", writes, 2, write_past, 0}, START, "wrote outside a list"},
    {{"write_read_only", reads, 2, write_element, 0}, END, "fault"},
    {{"write_const", reads, 2, write_element, 0}, HEAP, "changed a list that it may only read"},
    {{"write_last", writes, 2, write_last, 0}, END, "wrote past the needed part"},
    {{"write_and_refuse", writes, 2, write_and_refuse, 0}, END, "changed a list and refused"},
    {{"run_forever", reads, 2, run_forever, 0}, END, "no answer"},
    {{"recurse", reads, 2, recurse, 0}, END, "fault"},
    {{"refuse_28", reads, 2, refuse_28, 0}, END, "not in the table"},
    {{"refuse_with_figures", reads, 2, refuse_with_figures, 0}, END, "figures"},
    {{"refuse_with_fields", reads, 2, refuse_with_fields, 0}, END, "not 0 where there is no answer"},
};

const size_t wrong_count = sizeof wrongs / sizeof *wrongs;
