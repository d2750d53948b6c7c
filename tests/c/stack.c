/* Every call of calls.c on a thread with a stack of STACK_KB KB, all of it painted before, so that what was used shows. */
#define _GNU_SOURCE
#include <pthread.h>
#include <stdlib.h>

#define main all_calls
#include "calls.c"
#undef main

enum { BYTES = STACK_KB * 1024, PAINT = 0x5c };

static int status;

static void *run(void *unused)
{
    status = all_calls();
    return unused;
}

int main(void)
{
    unsigned char *stack;
    pthread_attr_t attributes;
    pthread_t thread;
    size_t unused = 0;
    if (posix_memalign((void **)&stack, 4096, BYTES))
        return 2;
    memset(stack, PAINT, BYTES);
    if (pthread_attr_init(&attributes) || pthread_attr_setstack(&attributes, stack, BYTES) || pthread_create(&thread, &attributes, run, 0) ||
        pthread_join(thread, 0))
        return 2;
    while (unused < BYTES && stack[unused] == PAINT)
        unused++;
    printf("%u of %u KB used, the test's own included\n", (unsigned)((BYTES - unused + 1023) / 1024), (unsigned)STACK_KB);
    return status || unused == 0;
}
