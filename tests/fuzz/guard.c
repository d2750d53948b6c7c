/* Where the lists stand during a call.
 *
 * END: the list ends where an inaccessible stretch begins, START: it begins where one ends; so a read or a write one element outside
 * faults. Each place is mapped twice: a list that may only be read is handed over by its read-only view, so that a write to it faults.
 * HEAP: a list of its own from malloc, for valgrind.
 */
#define _GNU_SOURCE
#include <stdio.h>
#include <stdlib.h>
#include <string.h>
#include <sys/mman.h>
#include <unistd.h>

#include "fuzz.h"

enum { STRETCH = 16 << 20, SLACK = 256, FILL = 0xa5 };

static enum mode mode;
static unsigned char *writable[MOST_PARAMETERS];
static unsigned char *readable[MOST_PARAMETERS];

/* One huge list of each kind: a call gets at most one. Page-aligned, so that a list can end at the guard. */
static unsigned char *huge_writable, *huge_readable;
enum { HUGE_BYTES = (HUGE_COUNT * 8 + 4095) / 4096 * 4096 };

/* Mapped memory with an inaccessible stretch on both sides: of the file, or if there is none zeros. */
static unsigned char *view(int file, off_t from, size_t bytes, int access)
{
    int fresh = MAP_PRIVATE | MAP_ANONYMOUS | MAP_NORESERVE;
    unsigned char *all = (unsigned char *)mmap(0, 2 * STRETCH + bytes, PROT_NONE, fresh, -1, 0);
    if (all == MAP_FAILED)
        abort();
    void *inner = mmap(all + STRETCH, bytes, access, (file < 0 ? fresh : MAP_SHARED) | MAP_FIXED, file, from);
    if (inner == MAP_FAILED)
        abort();
    return (unsigned char *)inner;
}

void begin_guard(enum mode chosen)
{
    mode = chosen;
    if (mode == HEAP || writable[0])
        return;
    int file = memfd_create("fuzz", 0);
    if (file < 0 || ftruncate(file, (off_t)MOST_PARAMETERS * LIST_BYTES))
        abort();
    for (size_t i = 0; i < MOST_PARAMETERS; i++) {
        writable[i] = view(file, (off_t)(i * LIST_BYTES), LIST_BYTES, PROT_READ | PROT_WRITE);
        readable[i] = view(file, (off_t)(i * LIST_BYTES), LIST_BYTES, PROT_READ);
    }
    huge_writable = view(-1, 0, HUGE_BYTES, PROT_READ | PROT_WRITE);
    huge_readable = view(-1, 0, HUGE_BYTES, PROT_READ);
}

/* Where the list stands in its place. */
static size_t offset_of(size_t bytes)
{
    return mode == END ? LIST_BYTES - bytes : 0;
}

/* The free bytes beside the list that are watched, on its unguarded side. */
static unsigned char *slack_of(size_t place, size_t bytes, size_t *length)
{
    size_t rest = LIST_BYTES - bytes;
    *length = rest < SLACK ? rest : SLACK;
    return mode == END ? writable[place] + rest - *length : writable[place] + bytes;
}

static void *placed(size_t place, enum form form, const struct value *v, size_t bytes)
{
    size_t at = offset_of(bytes);
    if (bytes)
        memcpy(writable[place] + at, v->bytes, bytes);
    if (form == READ)
        return readable[place] + at;
    size_t length;
    unsigned char *slack = slack_of(place, bytes, &length);
    memset(slack, FILL, length);
    return writable[place] + at;
}

static void *huge_placed(enum form form, size_t bytes)
{
    return (form == READ ? huge_readable : huge_writable) + (mode == END ? HUGE_BYTES - bytes : 0);
}

static void *on_heap(const struct value *v, size_t bytes)
{
    void *list = malloc(bytes);
    if (!list)
        abort();
    if (bytes)
        memcpy(list, v->bytes, bytes);
    return list;
}

void place(const struct function *f, const struct value *values, struct argument *arguments)
{
    for (size_t i = 0; i < f->count; i++) {
        const struct value *v = values + i;
        size_t bytes = v->count * f->parameters[i].width;
        arguments[i].number = v->number;
        arguments[i].count = v->count;
        arguments[i].list = 0;
        if (f->parameters[i].form == NUMBER || (v->null && !bytes))
            continue;
        enum form form = f->parameters[i].form;
        arguments[i].list = v->huge ? huge_placed(form, bytes) : mode == HEAP ? on_heap(v, bytes) : placed(i, form, v, bytes);
    }
}

void release(const struct function *f, struct argument *arguments)
{
    for (size_t i = 0; mode == HEAP && i < f->count; i++)
        free(f->parameters[i].form == NUMBER ? 0 : arguments[i].list);
}

static const char *beside(const struct function *f, const struct argument *a, size_t i)
{
    size_t length;
    if (mode == HEAP || f->parameters[i].form != LENT || !a[i].list)
        return 0;
    const unsigned char *slack = slack_of(i, a[i].count * f->parameters[i].width, &length);
    for (size_t k = 0; k < length; k++)
        if (slack[k] != FILL)
            return "wrote outside a list";
    return 0;
}

static const char *unlike_promised(struct outcome o)
{
    if (o.flawed)
        return "a bool that is neither 0 nor 1";
    if (o.number > 27)
        return "a number that is not in the table";
    if (o.number && o.present)
        return "a refusal with an answer";
    if ((o.number != 11 && (o.expected || o.actual)) || (o.number == 11 && o.expected == o.actual))
        return "figures that do not go with the number";
    if (!o.present && o.rest)
        return "a field that is not 0 where there is no answer";
    return 0;
}

/* What the call did that no call may, or nothing. */
const char *misuse(const struct function *f, const struct value *values, const struct argument *a, struct outcome o)
{
    const char *found = f->plain ? 0 : unlike_promised(o);
    for (size_t i = 0; !found && i < f->count; i++) {
        size_t bytes = a[i].count * f->parameters[i].width;
        if (f->parameters[i].form == NUMBER || !a[i].list || values[i].huge)
            continue;
        bool same = !bytes || !memcmp(a[i].list, values[i].bytes, bytes);
        if (!same && f->parameters[i].form == READ)
            found = "changed a list that it may only read";
        else if (!same && o.number)
            found = "changed a list and refused";
        else
            found = beside(f, a, i);
    }
    return found;
}

/* Whether the list is as it was from this element on. */
bool same_from(const struct function *f, const struct value *values, const struct argument *a, size_t list, size_t from)
{
    size_t width = f->parameters[list].width;
    if (values[list].huge || from >= a[list].count)
        return true;
    return !memcmp((unsigned char *)a[list].list + from * width, values[list].bytes + from * width, (a[list].count - from) * width);
}
