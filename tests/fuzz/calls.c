/* The table of the exported functions. */
#include <string.h>

#include "../../include/hybit_matrix.h"
#include "fuzz.h"

static bool nonzero(const void *field, size_t size)
{
    const unsigned char *byte = (const unsigned char *)field;
    for (size_t k = 0; k < size; k++)
        if (byte[k])
            return true;
    return false;
}

static bool flawed(const bool *flag)
{
    unsigned char byte;
    memcpy(&byte, flag, 1);
    return byte > 1;
}

static struct outcome plain_outcome(void)
{
    struct outcome o = {0, true, 0, 0, false, false};
    return o;
}

#include "calls.inc"
