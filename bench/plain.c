/* plain.c: what the module's opening does, in straightforward C: bits one by one out of the sheet, then full reduced
 * elimination that keeps for each row which rows of the sheet it is the sum of. Where its loops stand in memory moves
 * its time by up to a fifth, so it is there in four placements, and the best of them counts. */
#include "bench.h"
#include <string.h>

void plain_decode(const uint8_t *sheet, size_t n, size_t m, uint64_t *store)
{
    size_t at = 19, r, i;
    for (r = 0; r < m; r++) {
        uint64_t *row = store + PARITY_ROW_WORDS * r;
        memset(row, 0, PARITY_ROW_WORDS * sizeof *row);
        for (i = 0; i < n; i++, at++)
            row[i / 64] |= (uint64_t)(sheet[at / 8] >> (7 - at % 8) & 1) << (63 - i % 64);
        row[8] = sheet[at / 8] >> (7 - at % 8) & 1;
        at++;
    }
}

static int has(const plain_row *row, size_t column)
{
    return row->coefficients[column / 64] >> (63 - column % 64) & 1;
}

static void add(plain_row *to, const plain_row *from)
{
    size_t i;
    for (i = 0; i < 8; i++)
        to->coefficients[i] ^= from->coefficients[i];
    for (i = 0; i < 4; i++)
        to->provenance[i] ^= from->provenance[i];
    to->parity ^= from->parity;
}

static int lowest(const plain_row *row, size_t *column)
{
    size_t i;
    for (i = 0; i < 8; i++)
        if (row->coefficients[i]) {
            *column = 64 * i + (size_t)__builtin_clzll(row->coefficients[i]);
            return 1;
        }
    return 0;
}

static inline __attribute__((always_inline)) size_t eliminate(const uint64_t *store, size_t m, plain_row *rows)
{
    size_t kept = 0, r, k;
    for (r = 0; r < m; r++) {
        plain_row *next = &rows[kept];
        memset(next, 0, sizeof *next);
        memcpy(next->coefficients, store + PARITY_ROW_WORDS * r, sizeof next->coefficients);
        next->parity = store[PARITY_ROW_WORDS * r + 8];
        next->provenance[r / 64] = (uint64_t)1 << (63 - r % 64);
        for (k = 0; k < kept; k++)
            if (has(next, rows[k].lead))
                add(next, &rows[k]);
        if (!lowest(next, &next->lead)) {
            if (next->parity)
                return 0;
            continue;
        }
        for (k = 0; k < kept; k++)
            if (has(&rows[k], next->lead))
                add(&rows[k], next);
        kept++;
    }
    return kept;
}

/* The same loops, so many bytes behind the start of a cache line. */
#define PLACED(bytes)                                                                                                  \
    static __attribute__((noinline, aligned(64), patchable_function_entry(bytes)))                                     \
    size_t placed_##bytes(const uint64_t *store, size_t m, plain_row *rows)                                            \
    {                                                                                                                  \
        return eliminate(store, m, rows);                                                                              \
    }

PLACED(0)
PLACED(16)
PLACED(32)
PLACED(48)

size_t (*const plain_eliminate[PLACEMENTS])(const uint64_t *, size_t, plain_row *) = {placed_0, placed_16, placed_32,
                                                                                      placed_48};
