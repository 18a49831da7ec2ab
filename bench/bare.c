/* bare.c: the step of assume in C and nothing else: no header, no test of what is lent, rows exactly as wide as the
 * system, which is known when this is compiled, and a note in which row each variable became basic. So it is about what
 * the method itself costs. */
#include "bench.h"
#include <string.h>

static inline uint64_t bit_of(size_t v)
{
    return (uint64_t)1 << (63 - v % 64);
}

static inline size_t block_end(size_t q, size_t kept)
{
    return q + 64 < kept ? q + 64 : kept;
}

#define WORDS 1
#include "bare_step.h"
#undef WORDS
#define WORDS 4
#include "bare_step.h"
#undef WORDS
#define WORDS 8
#include "bare_step.h"

static const bare_search searches[] = {{64, start_1, assume_1}, {256, start_4, assume_4}, {512, start_8, assume_8}};

const bare_search *bare_for(size_t n, size_t m)
{
    size_t i;
    for (i = 0; i < sizeof searches / sizeof *searches; i++)
        if (searches[i].n == n && 2 * m == n)
            return &searches[i];
    return NULL;
}
