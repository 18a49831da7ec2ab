/* bench [--smoke] [REPORT PLOT]: times the module against plain C and M4RI in one process, so that the ratios mean
 * something on any machine. The systems are seeded, several of a kind, so that no contestant meets the same one twice
 * in a row. In every round all contestants take their turn, one after another; a turn's time is that of its best batch
 * of calls, each batch over all systems, and for the calls of a search the mean over all systems. A ratio is the median
 * over the rounds. */
#define _POSIX_C_SOURCE 199309L
#include "bench.h"
#include <stdio.h>
#include <stdlib.h>
#include <string.h>
#include <time.h>

static int rounds = ROUNDS;
static double batch_us = 400; /* how long a batch lasts at least */
enum { BATCHES = 3, SAMPLES = 512 };

static double now_us(void)
{
    struct timespec t;
    clock_gettime(CLOCK_MONOTONIC, &t);
    return 1e6 * (double)t.tv_sec + 1e-3 * (double)t.tv_nsec;
}

/* ---- the contestants ---- */

static sample samples[SAMPLES];
static const sample *end;     /* behind those in use */
static const sample *current; /* the one that is worked on */
static parity_header header;
static uint64_t store[PARITY_STORE_WORDS], work[PARITY_WORK_WORDS];
static uint64_t literals[PARITY_MAX_VARIABLES], rows[PARITY_MAX_ROWS];
static uint8_t written[PARITY_SHEET_BYTES];
static plain_row plain_rows[PARITY_MAX_ROWS];
static int placement;

static void must(int fact, const char *what)
{
    if (!fact) {
        fprintf(stderr, "bench: %s\n", what);
        exit(2);
    }
}

static void do_read(void)
{
    must(parity_read(current->sheet, current->size, store, PARITY_STORE_WORDS).number == PARITY_DONE, "read refused");
}

static void do_write(void)
{
    must(parity_write(current->n, current->m, current->store, PARITY_STORE_WORDS, written, sizeof written).number ==
             PARITY_DONE,
         "write refused");
}

static void do_open(void)
{
    parity_opening o = parity_open(header, current->sheet, current->size, store, PARITY_STORE_WORDS, work,
                                   PARITY_WORK_WORDS, literals, PARITY_MAX_VARIABLES, rows, PARITY_MAX_ROWS);
    must(o.number == PARITY_DONE, "open refused");
    header = o.header;
}

static void do_decode(void)
{
    plain_decode(current->sheet, current->n, current->m, store);
}

static void do_plain(void)
{
    must(plain_eliminate[placement](current->store, current->m, plain_rows) > 0,
         "plain elimination found a contradiction");
}

static void do_m4ri(void)
{
    m4ri_open(current->sheet, current->n, current->m);
}

static void keep_best(double *best, double us)
{
    if (*best == 0 || us < *best)
        *best = us;
}

/* How long one call takes: the best batch of several. */
static double take_turn(void (*contestant)(void))
{
    double best = 0;
    int batch;
    for (batch = 0; batch < BATCHES; batch++) {
        double start = now_us(), us;
        int calls = 0;
        do {
            for (current = samples; current < end; current++, calls++)
                contestant();
            us = now_us() - start;
        } while (us < batch_us);
        keep_best(&best, us / calls);
    }
    return best;
}

/* ---- a search in the small: a literal of each variable is offered, in a random order; each implied variable is
 * explained; then back in steps of an eighth. About half of the literals are taken, the others have a value by then.
 * Each part adds what one call took on the system at hand. ---- */

static uint64_t offered[PARITY_MAX_VARIABLES], taken[PARITY_MAX_VARIABLES], implied[PARITY_MAX_VARIABLES];
static size_t takes, implies;

static uint64_t assume(uint64_t code)
{
    parity_assuming a = parity_assume(header, work, PARITY_WORK_WORDS, literals, PARITY_MAX_VARIABLES, code);
    header = a.header;
    return a.number;
}

static void shuffle(uint64_t *seed)
{
    size_t i;
    for (i = 0; i < current->n; i++) {
        size_t other = random_word(seed) % (i + 1);
        offered[i] = offered[other];
        offered[other] = 2 * (i + 1) + random_word(seed) % 2;
    }
}

/* Which literals are taken, and which variables are implied. */
static void rehearse(void)
{
    size_t i;
    takes = implies = 0;
    do_open();
    for (i = 0; i < current->n; i++)
        if (assume(offered[i]) == PARITY_DONE)
            taken[takes++] = offered[i];
        else
            implied[implies++] = offered[i] / 2;
    must(takes == header.depth && implies == header.kept, "not one variable implied for each kept row");
}

static double take(const uint64_t *codes, size_t count)
{
    double start, us;
    size_t i;
    do_open();
    start = now_us();
    for (i = 0; i < count; i++)
        assume(codes[i]);
    us = (now_us() - start) / (double)count;
    must(header.depth == takes, "other literals were taken");
    return us;
}

static double take_bare(const uint64_t *codes, size_t count)
{
    const bare_search *bare = bare_for(current->n, current->m);
    double start, us;
    size_t done = 0, i;
    if (bare == NULL)
        return 0;
    bare->start(plain_rows, plain_eliminate[0](current->store, current->m, plain_rows));
    start = now_us();
    for (i = 0; i < count; i++)
        done += bare->assume(codes[i], literals) != BARE_HAD;
    us = (now_us() - start) / (double)count;
    must(done == takes, "the bare step took other literals");
    return us;
}

static double explain_all(void)
{
    double start = now_us();
    size_t done = 0, i;
    for (i = 0; i < implies; i++) {
        parity_explaining e = parity_explain(header, work, PARITY_WORK_WORDS, literals, PARITY_MAX_VARIABLES, rows,
                                             PARITY_MAX_ROWS, implied[i]);
        done += e.number == PARITY_DONE;
    }
    must(done == implies, "explain refused");
    return (now_us() - start) / (double)implies;
}

static double go_back(void)
{
    double start = now_us();
    int steps = 0;
    for (; header.depth > 0; steps++)
        must(parity_back(&header, work, PARITY_WORK_WORDS, header.depth - (header.depth + 7) / 8) == PARITY_DONE,
             "back refused");
    return (now_us() - start) / steps;
}

static void search(double *us, uint64_t *seed)
{
    double systems = (double)(end - samples);
    for (current = samples; current < end; current++) {
        shuffle(seed);
        rehearse();
        us[ASSUME] += take(offered, current->n) / systems;
        us[BARE_ASSUME] += take_bare(offered, current->n) / systems;
        us[TAKE] += take(taken, takes) / systems;
        us[BARE_TAKE] += take_bare(taken, takes) / systems;
        us[EXPLAIN] += explain_all() / systems;
        us[BACK] += go_back() / systems;
    }
}

/* ---- one kind of system ---- */

static void check_all(void)
{
    for (current = samples; current < end; current++) {
        do_open();
        do_write();
        for (placement = 0; placement < PLACEMENTS; placement++)
            must(header.kept == plain_eliminate[placement](current->store, current->m, plain_rows),
                 "kept counts differ");
        must(memcmp(written, current->sheet, current->size) == 0, "the written sheet differs");
    }
}

/* The fewer rows, the more systems: about as many tests of rows in all, more than a processor learns by heart. */
static size_t systems_for(size_t m)
{
    size_t kinds = 8 * 256 * 256 / (m * m);
    return kinds < SAMPLES ? kinds : SAMPLES;
}

/* One round of a kind of system, whose samples are the same in every round; the order of the literals is not. */
static void run_round(timing *t)
{
    double *us = t->us[t->rounds];
    uint64_t seed = 99 + (uint64_t)t->rounds;
    size_t i, kinds = systems_for(t->m);
    end = samples + kinds;
    for (i = 0; i < kinds; i++)
        make_sample(&samples[i], t->family, t->n, t->m, 1000000 * i + 1000 * t->n + t->m);
    check_all();
    m4ri_start(t->n, t->m);
    us[READ] = take_turn(do_read);
    us[WRITE] = take_turn(do_write);
    us[DECODE] = take_turn(do_decode);
    for (placement = 0; placement < PLACEMENTS; placement++)
        keep_best(&us[PLAIN], take_turn(do_plain));
    us[M4RI] = m4ri_there() ? take_turn(do_m4ri) : 0;
    us[OPEN] = take_turn(do_open);
    search(us, &seed);
    m4ri_end();
    t->rounds++;
}

static void set_kind(timing *t, family f, size_t n, size_t m)
{
    t->family = f;
    t->n = n;
    t->m = m;
}

/* The rounds go over all kinds of systems, so that a slow spell of the machine does not fall on one of them. */
static void run(results *r)
{
    static const size_t sizes[] = {64, 256, 512};
    size_t i;
    int round;
    for (i = 0; i < SYSTEMS; i++)
        set_kind(&r->systems[i], (family)(i / 3), sizes[i % 3], sizes[i % 3] / 2);
    for (i = 0; i < STEPS; i++) {
        set_kind(&r->by_n[i], DENSE, 64 * (i + 1), 32 * (i + 1));
        set_kind(&r->by_m[i], DENSE, 512, 32 * (i + 1));
    }
    for (round = 0; round < rounds; round++) {
        for (i = 0; i < SYSTEMS; i++)
            run_round(&r->systems[i]);
        for (i = 0; i < STEPS; i++) {
            run_round(&r->by_n[i]);
            run_round(&r->by_m[i]);
        }
    }
}

static void save(const char *name, void (*write)(FILE *, const results *), const results *r)
{
    FILE *out = fopen(name, "w");
    must(out != NULL, "cannot write the report");
    write(out, r);
    fclose(out);
}

int main(int argc, char **argv)
{
    static results r;
    if (argc > 1 && strcmp(argv[1], "--smoke") == 0) {
        rounds = 1;
        batch_us = 0;
        argc--;
        argv++;
    }
    run(&r);
    write_report(stdout, &r);
    if (argc == 3) {
        save(argv[1], write_report, &r);
        save(argv[2], write_plot, &r);
    }
    return 0;
}
