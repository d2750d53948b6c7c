/* The fuzz run: what its files share. */
#ifndef FUZZ_H
#define FUZZ_H

#include <stdbool.h>
#include <stddef.h>
#include <stdint.h>

/* How a parameter passes: a number, a list that the call may only read, or one that it may write. */
enum form { NUMBER, READ, LENT };

struct parameter {
    const char *name;
    enum form form;
    size_t width; /* bytes of the number or of one element */
    bool flag;    /* a bool: 0 or 1 */
};

/* What is handed to the library. */
struct argument {
    uint64_t number;
    void *list;
    size_t count;
};

/* What every record begins with; whether any other field has a bit; whether a bool is neither 0 nor 1. */
struct outcome {
    uint32_t number;
    bool present;
    uint64_t expected;
    uint64_t actual;
    bool rest;
    bool flawed;
};

struct function {
    const char *name;
    const struct parameter *parameters;
    size_t count;
    struct outcome (*call)(const struct argument *);
    bool plain; /* answers with a number, not a record: it never refuses */
};

extern const struct function functions[];
extern const size_t function_count;

/* A parameter's value before it is handed over: the fuzz run's own copy. */
struct value {
    uint64_t number;
    unsigned char *bytes;
    size_t count;
    bool null; /* an empty list without an address */
    bool huge; /* a list of zeros without a copy: more elements than LIST_BYTES hold */
};

/* A list's bytes at most; a huge list's elements at most: a little over 01's limit of entries. */
enum { MOST_PARAMETERS = 40, LIST_BYTES = 1 << 20, HUGE_COUNT = (1 << 24) + 1 };

enum mode { END, START, HEAP };

/* random.c: one stream of numbers for each case, and lists that live as long as it. */
void begin_random(uint64_t seed, uint64_t number);
uint64_t random_bits(void);
uint64_t below(uint64_t bound); /* 0 where the bound is 0 */
bool chance(unsigned of_hundred);
void begin_lists(void);
void *new_list(size_t bytes);

/* guard.c: lists with an inaccessible page after or before them, or on the heap. */
void begin_guard(enum mode mode);
void place(const struct function *f, const struct value *values, struct argument *arguments);
const char *misuse(const struct function *f, const struct value *values, const struct argument *arguments, struct outcome o);
bool same_from(const struct function *f, const struct value *values, const struct argument *arguments, size_t list, size_t from);
void release(const struct function *f, struct argument *arguments);

/* parts.c: a call's values such that it is accepted, mostly. */
void plausible(const struct function *f, struct value *values, bool small);

/* faults.c: what is wrong with them. */
void spoil(const struct function *f, struct value *values, bool small);
void arbitrary(const struct function *f, struct value *values);

/* wrong.c: functions that do what no call may, to see that it is reported. */
struct wrong {
    struct function function;
    enum mode mode;
    const char *report; /* a part of what must be printed */
};
extern const struct wrong wrongs[];
extern const size_t wrong_count;

#endif
