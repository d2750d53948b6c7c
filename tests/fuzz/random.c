/* Random numbers (splitmix64), and lists that are given back all at once. */
#include <stdio.h>
#include <stdlib.h>

#include "fuzz.h"

static uint64_t state;

uint64_t random_bits(void)
{
    uint64_t z = state += 0x9e3779b97f4a7c15u;
    z = (z ^ (z >> 30)) * 0xbf58476d1ce4e5b9u;
    z = (z ^ (z >> 27)) * 0x94d049bb133111ebu;
    return z ^ (z >> 31);
}

void begin_random(uint64_t seed, uint64_t number)
{
    state = seed;
    state = random_bits() + number;
    state = random_bits();
}

uint64_t below(uint64_t bound)
{
    return bound ? random_bits() % bound : 0;
}

bool chance(unsigned of_hundred)
{
    return below(100) < of_hundred;
}

static unsigned char *lists;
static size_t used;
enum { ROOM = 256 << 20 };

void begin_lists(void)
{
    if (!lists && !(lists = (unsigned char *)malloc(ROOM)))
        abort();
    used = 0;
}

void *new_list(size_t bytes)
{
    size_t rounded = (bytes + 15) & ~(size_t)15;
    if (rounded > ROOM - used) {
        fprintf(stderr, "fuzz: a case takes too much memory\n");
        exit(2);
    }
    used += rounded;
    return lists + used - rounded;
}
