/* scrambler TAP TAP: writes the question "is a scrambler followed by this descrambler the identity?" for search.c.
 *
 * The scrambler adds to each data bit the line bits 18 and 23 places before it (1 + x^-18 + x^-23, the calling side of
 * ITU-T V.32); the descrambler does the same with the two taps given. Each byte is scrambled or sent plain as its
 * enable bit says, and the wires of the pair are swapped, which turns every line bit round. For each of 32 bits t:
 *
 *   key    = line[t - 18] + line[t - 23]            row
 *   gated  = key and enable                         clauses
 *   line   = data + gated + 1                       row
 *   key'   = line[t - TAP] + line[t - TAP]          row
 *   gated' = key' and enable                        clauses
 *   out    = line + gated' + 1                      row
 *   differ = data + out                             row
 *
 * and one clause asks for a bit that differs. The line bits before the first are the seed.
 */
#include <parity.h>
#include <stdio.h>
#include <stdlib.h>

enum { BITS = 32, SEED = 23, ENABLES = BITS / 8, ROWS = 5 * BITS };

/* The nets, each group numbered on from the one before it. */
enum {
    FIRST_ENABLE = SEED + 1,
    FIRST_DATA = FIRST_ENABLE + ENABLES,
    FIRST_KEY = FIRST_DATA + BITS,
    FIRST_GATED = FIRST_KEY + BITS,
    FIRST_LINE = FIRST_GATED + BITS,
    FIRST_KEY2 = FIRST_LINE + BITS,
    FIRST_GATED2 = FIRST_KEY2 + BITS,
    FIRST_OUT = FIRST_GATED2 + BITS,
    FIRST_DIFFER = FIRST_OUT + BITS,
    VARIABLES = FIRST_DIFFER + BITS - 1
};

static uint64_t store[PARITY_ROW_WORDS * ROWS];
static size_t row_count;

static int line_bit(int t)
{
    return t < 0 ? SEED + 1 + t : FIRST_LINE + t;
}

static void row(int a, int b, int c, uint64_t parity)
{
    uint64_t *words = store + PARITY_ROW_WORDS * row_count++;
    const int variables[] = {a, b, c};
    int i;
    for (i = 0; i < 3; i++)
        words[(variables[i] - 1) / 64] ^= (uint64_t)1 << (63 - (variables[i] - 1) % 64);
    words[8] = parity;
}

static void and_gate(int out, int a, int b)
{
    printf("clause -%d %d\nclause -%d %d\nclause %d -%d -%d\n", out, a, out, b, out, a, b);
}

static void write_sheet(void)
{
    static uint8_t sheet[PARITY_SHEET_BYTES];
    parity_writing w = parity_write(VARIABLES, row_count, store, PARITY_ROW_WORDS * row_count, sheet, sizeof sheet);
    size_t i;
    if (w.number != PARITY_DONE) {
        fprintf(stderr, "scrambler: write refused with %d\n", (int)w.number);
        exit(2);
    }
    printf("sheet");
    for (i = 0; i < w.size; i++)
        printf("%s%02X", i % 40 ? "" : "\n", sheet[i]);
    printf("\n");
}

int main(int argc, char **argv)
{
    int taps[2], t;
    for (t = 0; t < 2; t++)
        taps[t] = argc == 3 ? atoi(argv[t + 1]) : 0;
    if (taps[0] < 1 || taps[0] > SEED || taps[1] < 1 || taps[1] > SEED) {
        fprintf(stderr, "usage: scrambler TAP TAP, each from 1 to %d\n", SEED);
        return 2;
    }
    printf("# Scrambler 18 23, then descrambler %d %d, against the identity; made by scrambler.c.\n", taps[0], taps[1]);
    printf("show seed %d %d\n", 1, SEED);
    printf("show enable %d %d\n", FIRST_ENABLE, FIRST_ENABLE + ENABLES - 1);
    printf("show data %d %d\n", FIRST_DATA, FIRST_DATA + BITS - 1);
    printf("show line %d %d\n", FIRST_LINE, FIRST_LINE + BITS - 1);
    printf("show out %d %d\n", FIRST_OUT, FIRST_OUT + BITS - 1);
    printf("show differ %d %d\n", FIRST_DIFFER, FIRST_DIFFER + BITS - 1);
    for (t = 0; t < BITS; t++) {
        row(FIRST_KEY + t, line_bit(t - 18), line_bit(t - 23), 0);
        and_gate(FIRST_GATED + t, FIRST_KEY + t, FIRST_ENABLE + t / 8);
        row(FIRST_LINE + t, FIRST_DATA + t, FIRST_GATED + t, 1);
        row(FIRST_KEY2 + t, line_bit(t - taps[0]), line_bit(t - taps[1]), 0);
        and_gate(FIRST_GATED2 + t, FIRST_KEY2 + t, FIRST_ENABLE + t / 8);
        row(FIRST_OUT + t, FIRST_LINE + t, FIRST_GATED2 + t, 1);
        row(FIRST_DIFFER + t, FIRST_DATA + t, FIRST_OUT + t, 0);
    }
    printf("clause");
    for (t = 0; t < BITS; t++)
        printf(" %d", FIRST_DIFFER + t);
    printf("\n");
    write_sheet();
    return 0;
}
