/* systems.c: seeded systems that have a solution, as sheets. */
#include "bench.h"
#include <stdio.h>
#include <stdlib.h>
#include <string.h>

const char *const family_names[FAMILIES] = {"dense", "sparse", "scrambler"};

/* SplitMix64 */
uint64_t random_word(uint64_t *seed)
{
    uint64_t z = *seed += 0x9E3779B97F4A7C15u;
    z = (z ^ (z >> 30)) * 0xBF58476D1CE4E5B9u;
    z = (z ^ (z >> 27)) * 0x94D049BB133111EBu;
    return z ^ (z >> 31);
}

static void turn(uint64_t *row, size_t column)
{
    row[column / 64] ^= (uint64_t)1 << (63 - column % 64);
}

/* Row t of a scrambler: line bit t is data bit t and the line bits 18 and 23 places before, as far as there are any. */
static void scrambler_row(uint64_t *row, size_t t, size_t m)
{
    turn(row, t);
    turn(row, m + t);
    if (t >= 18)
        turn(row, t - 18);
    if (t >= 23)
        turn(row, t - 23);
}

static void fill_row(uint64_t *row, family f, size_t n, size_t m, size_t r, uint64_t *seed)
{
    size_t i;
    memset(row, 0, PARITY_ROW_WORDS * sizeof *row);
    switch (f) {
    case DENSE:
        for (i = 0; i < n; i++)
            if (random_word(seed) & 1)
                turn(row, i);
        break;
    case SPARSE:
        for (i = 0; i < 4; i++)
            turn(row, random_word(seed) % n);
        break;
    default:
        scrambler_row(row, r, m);
    }
}

/* n is at least 2 * m for a scrambler. The parities are those of a random assignment. */
void make_sample(sample *s, family f, size_t n, size_t m, uint64_t seed)
{
    uint64_t truth[8];
    parity_writing w;
    size_t r, i;
    s->family = f;
    s->n = n;
    s->m = m;
    for (i = 0; i < 8; i++)
        truth[i] = random_word(&seed);
    for (r = 0; r < m; r++) {
        uint64_t *row = s->store + PARITY_ROW_WORDS * r, both = 0;
        fill_row(row, f, n, m, r, &seed);
        for (i = 0; i < 8; i++)
            both ^= row[i] & truth[i];
        row[8] = (uint64_t)__builtin_parityll(both);
    }
    w = parity_write(n, m, s->store, PARITY_STORE_WORDS, s->sheet, sizeof s->sheet);
    if (w.number != PARITY_DONE) {
        fprintf(stderr, "bench: write refused with %d\n", (int)w.number);
        exit(2);
    }
    s->size = w.size;
}
