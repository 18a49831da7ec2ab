/* bench.h: the pieces of the benchmark. */
#ifndef BENCH_H
#define BENCH_H

#include <parity.h>
#include <stdio.h>

/* ---- systems.c: seeded systems that have a solution ---- */

typedef enum { DENSE, SPARSE, SCRAMBLER, FAMILIES } family;
extern const char *const family_names[FAMILIES];

typedef struct {
    family family;
    size_t n, m, size;
    uint8_t sheet[PARITY_SHEET_BYTES];
    uint64_t store[PARITY_STORE_WORDS];
} sample;

uint64_t random_word(uint64_t *seed);
void make_sample(sample *s, family f, size_t n, size_t m, uint64_t seed);

/* ---- plain.c: the same work in straightforward C ---- */

typedef struct {
    uint64_t coefficients[8], provenance[4], parity;
    size_t lead; /* its own column, which no other row has */
} plain_row;

void plain_decode(const uint8_t *sheet, size_t n, size_t m, uint64_t *store);
enum { PLACEMENTS = 4 }; /* the same elimination at four places in a cache line */
/* the rows kept; none where they contradict */
extern size_t (*const plain_eliminate[PLACEMENTS])(const uint64_t *store, size_t m, plain_row *rows);

/* ---- bare.c: the step of assume and nothing else, for n = 64, 256 and 512 and m = n / 2 ---- */

enum { BARE_HAD = -1 };

typedef struct {
    size_t n;
    void (*start)(const plain_row *rows, size_t kept); /* from an elimination, no literal taken */
    int (*assume)(uint64_t code, uint64_t *literals);  /* how many are newly implied, or BARE_HAD: it had a value */
} bare_search;

const bare_search *bare_for(size_t n, size_t m); /* or NULL */

/* ---- four_russians.c: M4RI, where it is installed ---- */

int m4ri_there(void);
void m4ri_start(size_t n, size_t m);
void m4ri_open(const uint8_t *sheet, size_t n, size_t m); /* decodes and brings to reduced echelon form */
void m4ri_end(void);

/* ---- report.c ---- */

typedef enum {
    READ,
    WRITE,
    OPEN,
    DECODE,
    PLAIN,
    M4RI,
    ASSUME,
    TAKE,
    BARE_ASSUME,
    BARE_TAKE,
    BACK,
    EXPLAIN,
    TURNS
} turn_of;

enum { ROUNDS = 15 };

typedef struct {
    family family;
    size_t n, m;
    int rounds;
    double us[ROUNDS][TURNS]; /* microseconds a call, by round; 0 for a contestant that is missing */
} timing;

enum { SYSTEMS = 9, STEPS = 8 };

typedef struct {
    timing systems[SYSTEMS]; /* families by size */
    timing by_n[STEPS];      /* dense, m = n / 2 */
    timing by_m[STEPS];      /* dense, n = 512 */
} results;

void write_report(FILE *out, const results *r); /* tables in Markdown */
void write_plot(FILE *out, const results *r);   /* SVG */

#endif
