/* Every call of parity.h from C. What is lent is exactly as large as asked for, and sheets of many sizes are read from
 * memory of exactly their size (round_trip), so that valgrind sees a step outside.
 * Prints what failed and then `N passed, M failed`. */
#include <parity.h>
#include <stdio.h>
#include <stdlib.h>
#include <string.h>

/* ---- the layout of what passes the boundary ---- */

#define HOLDS(name, fact) typedef char name[(fact) ? 1 : -1]
HOLDS(header_size, sizeof(parity_header) == 40);
HOLDS(header_order, offsetof(parity_header, open) == 0 && offsetof(parity_header, n) == 8 &&
                        offsetof(parity_header, m) == 16 && offsetof(parity_header, kept) == 24 &&
                        offsetof(parity_header, depth) == 32);
HOLDS(reading_size, sizeof(parity_reading) == 24 && offsetof(parity_reading, m) == 16);
HOLDS(writing_size, sizeof(parity_writing) == 16 && offsetof(parity_writing, size) == 8);
HOLDS(opening_size, sizeof(parity_opening) == 56 && offsetof(parity_opening, header) == 16);
HOLDS(assuming_size, sizeof(parity_assuming) == 56 && offsetof(parity_assuming, header) == 16);
HOLDS(explaining_size, sizeof(parity_explaining) == 24 && offsetof(parity_explaining, rows) == 16);
HOLDS(sheet_bytes, PARITY_SHEET_SIZE(PARITY_MAX_VARIABLES, PARITY_MAX_ROWS) == PARITY_SHEET_BYTES);

static int passed, failed;

static void check(int fact, int line, const char *text)
{
    if (fact) {
        passed++;
    } else {
        failed++;
        printf("FAILED calls.c:%d: %s\n", line, text);
    }
}
#define CHECK(fact) check((fact) != 0, __LINE__, #fact)

/* ---- one state on buffers of exact size ---- */

static const parity_header none = {0, 0, 0, 0, 0};

typedef struct {
    parity_header header;
    size_t n, m;
    uint64_t *store, *work, *literals, *rows;
} state;

/* malloc of exactly so many words, each with a pattern; null for none */
static uint64_t *words(size_t count)
{
    uint64_t *all = count ? malloc(count * sizeof *all) : NULL;
    size_t i;
    for (i = 0; i < count; i++)
        all[i] = 0xA5A5000000000000u + i;
    return all;
}

static state seat(size_t n, size_t m)
{
    state s;
    s.header = none;
    s.n = n;
    s.m = m;
    s.store = words(PARITY_ROW_WORDS * m);
    s.work = words(PARITY_WORK_WORDS);
    s.literals = words(n);
    s.rows = words(m);
    return s;
}

static void leave(state *s)
{
    free(s->store);
    free(s->work);
    free(s->literals);
    free(s->rows);
}

static parity_opening open_sheet(state *s, const uint8_t *sheet, size_t size)
{
    parity_opening o = parity_open(s->header, sheet, size, s->store, PARITY_ROW_WORDS * s->m, s->work,
                                   PARITY_WORK_WORDS, s->literals, s->n, s->rows, s->m);
    s->header = o.header;
    return o;
}

static parity_assuming assume(state *s, uint64_t code)
{
    parity_assuming a = parity_assume(s->header, s->work, PARITY_WORK_WORDS, s->literals, s->n, code);
    s->header = a.header;
    return a;
}

static uint64_t back(state *s, uint64_t depth)
{
    return parity_back(&s->header, s->work, PARITY_WORK_WORDS, depth);
}

static parity_explaining explain(state *s, uint64_t variable)
{
    return parity_explain(s->header, s->work, PARITY_WORK_WORDS, s->literals, s->n, s->rows, s->m, variable);
}

static int lists(const uint64_t *list, uint64_t a, uint64_t b)
{
    return list[0] == a && list[1] == b;
}

/* ---- the calls ---- */

static const uint8_t system_b[] = {0x01, 0x80, 0x72, 0xD6, 0x1A}; /* 1+4+6 = 1, 2+4+5 = 0, 3+4+6 = 0 */

static void settled_example(void)
{
    state s = seat(6, 3);
    parity_opening o = open_sheet(&s, system_b, sizeof system_b);
    parity_assuming a;
    parity_explaining e;
    CHECK(o.number == PARITY_DONE && o.count == 0);
    CHECK(s.header.open == 1 && s.header.n == 6 && s.header.m == 3 && s.header.kept == 3 && s.header.depth == 0);

    a = assume(&s, PARITY_TRUE(1));
    CHECK(a.number == PARITY_DONE && a.count == 1 && s.literals[0] == PARITY_FALSE(3) && s.header.depth == 1);
    e = explain(&s, 3);
    CHECK(e.number == PARITY_DONE && e.clause == 2 && e.rows == 2);
    CHECK(lists(s.literals, PARITY_FALSE(3), PARITY_FALSE(1)) && lists(s.rows, 1, 3));
    a = assume(&s, PARITY_TRUE(3));
    CHECK(a.number == PARITY_CONFLICT && a.count == 3 && s.header.depth == 1);
    a = assume(&s, PARITY_FALSE(3));
    CHECK(a.number == PARITY_HELD && a.count == 0 && s.header.depth == 1);
    CHECK(explain(&s, 1).number == PARITY_NOT_IMPLIED);
    CHECK(back(&s, 2) == PARITY_ABOVE_DEPTH && s.header.depth == 1);
    CHECK(back(&s, 0) == PARITY_DONE && s.header.depth == 0);
    CHECK(explain(&s, 3).number == PARITY_NOT_IMPLIED);
    a = assume(&s, PARITY_TRUE(4));
    CHECK(a.number == PARITY_DONE && a.count == 0);
    leave(&s);
}

static void contradiction(void)
{
    static const uint8_t sheet[] = {0x00, 0x80, 0x5F, 0x00}; /* 1+2 = 1, 1+2 = 0 */
    state s = seat(2, 2);
    parity_opening o = open_sheet(&s, sheet, sizeof sheet);
    CHECK(o.number == PARITY_UNSATISFIABLE && o.count == 2 && lists(s.rows, 1, 2));
    CHECK(memcmp(&s.header, &none, sizeof none) == 0);
    CHECK(s.store[0] == (uint64_t)3 << 62 && s.store[8] == 1 && s.store[9] == (uint64_t)3 << 62 && s.store[17] == 0);
    CHECK(s.literals[0] == 0xA5A5000000000000u && s.literals[1] == 0xA5A5000000000001u);
    CHECK(assume(&s, 2).number == PARITY_NOT_OPEN && explain(&s, 1).number == PARITY_NOT_OPEN);
    CHECK(back(&s, 0) == PARITY_NOT_OPEN && memcmp(&s.header, &none, sizeof none) == 0);
    leave(&s);
}

/* Written, read and written again. Each row has variables 1 and n, and none where n is 1; parities in turn. */
static void round_trip(size_t n, size_t m)
{
    const size_t size = PARITY_SHEET_SIZE(n, m), count = PARITY_ROW_WORDS * m;
    uint8_t *sheet = malloc(size), *again = malloc(size);
    uint64_t *store = words(count), *back = words(count);
    parity_reading read;
    size_t r;
    memset(store, 0, count * sizeof *store);
    for (r = 0; r < m; r++) {
        uint64_t *row = store + PARITY_ROW_WORDS * r;
        row[0] ^= (uint64_t)1 << 63;
        row[(n - 1) / 64] ^= (uint64_t)1 << (63 - (n - 1) % 64);
        row[8] = r % 2;
    }
    CHECK(parity_write(n, m, store, count, sheet, size).size == size);
    read = parity_read(sheet, size, back, count);
    CHECK(read.number == PARITY_DONE && read.n == n && read.m == m);
    CHECK(memcmp(store, back, count * sizeof *store) == 0);
    CHECK(parity_write(n, m, back, count, again, size).size == size && memcmp(sheet, again, size) == 0);
    free(sheet);
    free(again);
    free(store);
    free(back);
}

static void sheets(void)
{
    static const size_t sizes[] = {1, 5, 6, 7, 8, 44, 45, 62, 63, 64, 65, 127, 128, 129, 511, 512};
    size_t i;
    for (i = 0; i < sizeof sizes / sizeof *sizes; i++) {
        round_trip(sizes[i], 1);
        round_trip(sizes[i], 3);
        round_trip(sizes[i], 8);
    }
}

static void largest_sheet(void)
{
    uint8_t *sheet = malloc(PARITY_SHEET_BYTES), *again = malloc(PARITY_SHEET_BYTES);
    state s = seat(PARITY_MAX_VARIABLES, PARITY_MAX_ROWS);
    parity_writing w;
    size_t r;
    for (r = 0; r < PARITY_MAX_ROWS; r++) { /* row r: variables r + 1 and 512 - r, parity 1 */
        uint64_t *row = s.store + PARITY_ROW_WORDS * r;
        memset(row, 0, PARITY_ROW_WORDS * sizeof *row);
        row[r / 64] |= (uint64_t)1 << (63 - r % 64);
        row[(511 - r) / 64] |= (uint64_t)1 << (63 - (511 - r) % 64);
        row[8] = 1;
    }
    w = parity_write(512, 256, s.store, PARITY_STORE_WORDS, sheet, PARITY_SHEET_BYTES);
    CHECK(w.number == PARITY_DONE && w.size == PARITY_SHEET_BYTES);
    CHECK(parity_write(512, 256, s.store, PARITY_STORE_WORDS, sheet, PARITY_SHEET_BYTES - 1).number ==
          PARITY_ANSWER_SHORT);
    CHECK(open_sheet(&s, sheet, PARITY_SHEET_BYTES).number == PARITY_DONE && s.header.kept == 256);
    w = parity_write(512, 256, s.store, PARITY_STORE_WORDS, again, PARITY_SHEET_BYTES);
    CHECK(w.number == PARITY_DONE && memcmp(sheet, again, PARITY_SHEET_BYTES) == 0);
    for (r = 1; r <= 256; r++) {
        parity_assuming a = assume(&s, r % 2 ? PARITY_TRUE(r) : PARITY_TRUE(513 - r));
        CHECK(a.number == PARITY_DONE && a.count == 1 &&
              s.literals[0] == (r % 2 ? PARITY_FALSE(513 - r) : PARITY_FALSE(r)));
    }
    CHECK(s.header.depth == 256);
    CHECK(explain(&s, 512).number == PARITY_DONE && lists(s.literals, PARITY_FALSE(512), PARITY_FALSE(1)) &&
          s.rows[0] == 1);
    CHECK(back(&s, 255) == PARITY_DONE && explain(&s, 256).number == PARITY_NOT_IMPLIED);
    CHECK(explain(&s, 512).number == PARITY_DONE);
    leave(&s);
    free(sheet);
    free(again);
}

static void nothing_at_all(void)
{
    static const uint8_t empty[] = {0, 0, 0};
    state s = seat(0, 0);
    parity_reading r = parity_read(empty, 3, NULL, 0);
    uint8_t sheet[3] = {9, 9, 9};
    CHECK(r.number == PARITY_DONE && r.n == 0 && r.m == 0);
    CHECK(parity_write(0, 0, NULL, 0, sheet, 3).size == 3 && memcmp(sheet, empty, 3) == 0);
    CHECK(parity_read(NULL, 0, NULL, 0).number == PARITY_SHEET_SHORT);
    CHECK(parity_open(none, NULL, 0, NULL, 0, NULL, 0, NULL, 0, NULL, 0).number == PARITY_SHEET_SHORT);
    CHECK(parity_open(none, empty, 3, NULL, 0, NULL, 0, NULL, 0, NULL, 0).number == PARITY_LENT_SHORT);
    CHECK(open_sheet(&s, empty, 3).number == PARITY_DONE && s.header.open == 1);
    CHECK(assume(&s, 2).number == PARITY_OUT_OF_RANGE && explain(&s, 1).number == PARITY_OUT_OF_RANGE);
    CHECK(back(&s, 0) == PARITY_DONE && back(&s, 1) == PARITY_ABOVE_DEPTH);
    leave(&s);
}

/* ---- the refusals ---- */

static state copy(const state *s)
{
    state c = seat(s->n, s->m);
    c.header = s->header;
    memcpy(c.store, s->store, PARITY_ROW_WORDS * s->m * sizeof *c.store);
    memcpy(c.work, s->work, PARITY_WORK_WORDS * sizeof *c.work);
    memcpy(c.literals, s->literals, s->n * sizeof *c.literals);
    memcpy(c.rows, s->rows, s->m * sizeof *c.rows);
    return c;
}

static int same_header(parity_header a, parity_header b)
{
    return memcmp(&a, &b, sizeof a) == 0;
}

/* 1 where the state is what its copy is; frees the copy. */
static int unchanged(const state *s, state *c)
{
    int same = same_header(s->header, c->header) &&
               memcmp(s->store, c->store, PARITY_ROW_WORDS * s->m * sizeof *c->store) == 0 &&
               memcmp(s->work, c->work, PARITY_WORK_WORDS * sizeof *c->work) == 0 &&
               memcmp(s->literals, c->literals, s->n * sizeof *c->literals) == 0 &&
               memcmp(s->rows, c->rows, s->m * sizeof *c->rows) == 0;
    leave(c);
    return same;
}

enum { CHANGED = 99 }; /* no call answers it */

/* Each call with buffers of these lengths: the number it answers, or CHANGED where the header does not come back as it
 * was lent, another field of the answer is not 0, or a buffer is not what it was. */

static uint64_t read_at(state *s, const uint8_t *sheet, size_t size, size_t store)
{
    state c = copy(s);
    parity_reading r = parity_read(sheet, size, s->store, store);
    return unchanged(s, &c) && r.n == 0 && r.m == 0 ? r.number : CHANGED;
}

static uint64_t write_at(size_t n, size_t m, const uint64_t *store, size_t store_len, size_t size)
{
    static const uint8_t before[8] = {1, 2, 3, 4, 5, 6, 7, 8};
    uint8_t sheet[8];
    parity_writing w;
    memcpy(sheet, before, sizeof sheet);
    w = parity_write(n, m, store, store_len, sheet, size);
    return memcmp(sheet, before, sizeof sheet) == 0 && w.size == 0 ? w.number : CHANGED;
}

static uint64_t open_at(state *s, const uint8_t *sheet, size_t size, size_t store, size_t work, size_t literals,
                        size_t rows)
{
    state c = copy(s);
    parity_opening o =
        parity_open(s->header, sheet, size, s->store, store, s->work, work, s->literals, literals, s->rows, rows);
    return unchanged(s, &c) && same_header(o.header, s->header) && o.count == 0 ? o.number : CHANGED;
}

static uint64_t assume_at(state *s, parity_header h, size_t work, size_t literals, uint64_t code)
{
    state c = copy(s);
    parity_assuming a = parity_assume(h, s->work, work, s->literals, literals, code);
    return unchanged(s, &c) && same_header(a.header, h) && a.count == 0 ? a.number : CHANGED;
}

static uint64_t back_at(state *s, parity_header h, size_t work, uint64_t depth)
{
    state c = copy(s);
    parity_header lent = h;
    uint64_t number = parity_back(&lent, s->work, work, depth);
    return unchanged(s, &c) && same_header(lent, h) ? number : CHANGED;
}

static uint64_t explain_at(state *s, parity_header h, size_t work, size_t clause, size_t rows, uint64_t variable)
{
    state c = copy(s);
    parity_explaining e = parity_explain(h, s->work, work, s->literals, clause, s->rows, rows, variable);
    return unchanged(s, &c) && e.clause == 0 && e.rows == 0 ? e.number : CHANGED;
}

static const uint8_t many[] = {0x80, 0x60, 0x20};    /* n 513, m 257 */
static const uint8_t rows257[] = {0x00, 0x20, 0x20}; /* m 257 */
static const uint8_t padded[] = {0x00, 0x00, 0x10};
static const uint8_t longer[] = {0x01, 0x80, 0x72, 0xD6, 0x1A, 0x00}; /* system B and a sixth byte */

/* Each refusal once for each case of its line in document 01, in the order of its call. Where a later check would fail
 * too, it must not be the one that answers. */

static void refused_sheets(void)
{
    const size_t large = (size_t)1 << 63;
    state s = seat(6, 3);
    uint64_t row[9] = {0};

    CHECK(read_at(&s, many, 2, 0) == PARITY_SHEET_SHORT);
    CHECK(read_at(&s, many, 3, 0) == PARITY_MANY_VARIABLES);
    CHECK(read_at(&s, rows257, 3, 0) == PARITY_MANY_ROWS);
    CHECK(read_at(&s, system_b, 4, 0) == PARITY_SHEET_SHORT);
    CHECK(read_at(&s, longer, 6, 0) == PARITY_SHEET_LONG);
    CHECK(read_at(&s, padded, 3, 0) == PARITY_UNCLEAN);
    CHECK(read_at(&s, system_b, 5, 26) == PARITY_LENT_SHORT);

    CHECK(write_at(large, 257, row, 9, 8) == PARITY_MANY_VARIABLES);
    CHECK(write_at(6, large, row, 9, 8) == PARITY_MANY_ROWS);
    row[8] = 2;
    CHECK(write_at(6, 2, row, 9, 8) == PARITY_LENT_SHORT);
    CHECK(write_at(6, 1, row, 9, 0) == PARITY_UNCLEAN);
    row[8] = 1;
    row[0] = (uint64_t)1 << (63 - 6); /* variable 7 */
    CHECK(write_at(6, 1, row, 9, 0) == PARITY_UNCLEAN);
    row[0] = 0;
    CHECK(write_at(6, 1, row, 9, 3) == PARITY_ANSWER_SHORT);
    leave(&s);
}

static void refused_opening(void)
{
    state s = seat(6, 3);
    CHECK(open_sheet(&s, system_b, sizeof system_b).number == PARITY_DONE);
    CHECK(assume(&s, PARITY_TRUE(1)).count == 1);

    CHECK(open_at(&s, many, 2, 0, 0, 0, 0) == PARITY_SHEET_SHORT);
    CHECK(open_at(&s, many, 3, 0, 0, 0, 0) == PARITY_MANY_VARIABLES);
    CHECK(open_at(&s, rows257, 3, 0, 0, 0, 0) == PARITY_MANY_ROWS);
    CHECK(open_at(&s, system_b, 4, 0, 0, 0, 0) == PARITY_SHEET_SHORT);
    CHECK(open_at(&s, longer, 6, 0, 0, 0, 0) == PARITY_SHEET_LONG);
    CHECK(open_at(&s, padded, 3, 0, 0, 0, 0) == PARITY_UNCLEAN);
    CHECK(open_at(&s, system_b, 5, 26, PARITY_WORK_WORDS, 0, 0) == PARITY_LENT_SHORT);
    CHECK(open_at(&s, system_b, 5, 27, PARITY_WORK_WORDS - 1, 0, 0) == PARITY_LENT_SHORT);
    CHECK(open_at(&s, system_b, 5, 27, PARITY_WORK_WORDS, 5, 3) == PARITY_ANSWER_SHORT);
    CHECK(open_at(&s, system_b, 5, 27, PARITY_WORK_WORDS, 6, 2) == PARITY_ANSWER_SHORT);

    CHECK(assume(&s, PARITY_FALSE(3)).number == PARITY_HELD); /* the old state stands */
    leave(&s);
}

static void refused_search(void)
{
    static const parity_header bad[] = {{2, 6, 3, 3, 1},   {1, (uint64_t)1 << 63, 3, 3, 1},
                                        {1, 513, 3, 3, 1}, {1, 6, 257, 3, 1},
                                        {1, 6, 3, 4, 1},   {1, 3, 6, 4, 1},
                                        {1, 6, 3, 3, 7}};
    const size_t work = PARITY_WORK_WORDS;
    state s = seat(6, 3);
    size_t i;
    CHECK(open_sheet(&s, system_b, sizeof system_b).number == PARITY_DONE);
    CHECK(assume(&s, PARITY_TRUE(1)).count == 1);

    for (i = 0; i < sizeof bad / sizeof *bad; i++) {
        CHECK(assume_at(&s, bad[i], 0, 0, 0) == PARITY_NOT_OPEN);
        CHECK(back_at(&s, bad[i], 0, 8) == PARITY_NOT_OPEN);
        CHECK(explain_at(&s, bad[i], 0, 0, 0, 0) == PARITY_NOT_OPEN);
    }

    CHECK(assume_at(&s, s.header, work - 1, 0, 0) == PARITY_LENT_SHORT);
    CHECK(assume_at(&s, s.header, work, 5, 0) == PARITY_ANSWER_SHORT);
    CHECK(assume_at(&s, s.header, work, 6, 1) == PARITY_OUT_OF_RANGE);
    CHECK(assume_at(&s, s.header, work, 6, 14) == PARITY_OUT_OF_RANGE);

    CHECK(back_at(&s, s.header, work - 1, 2) == PARITY_LENT_SHORT);
    CHECK(back_at(&s, s.header, work, 2) == PARITY_ABOVE_DEPTH);

    CHECK(explain_at(&s, s.header, work - 1, 0, 0, 0) == PARITY_LENT_SHORT);
    CHECK(explain_at(&s, s.header, work, 5, 3, 0) == PARITY_ANSWER_SHORT);
    CHECK(explain_at(&s, s.header, work, 6, 2, 0) == PARITY_ANSWER_SHORT);
    CHECK(explain_at(&s, s.header, work, 6, 3, 0) == PARITY_OUT_OF_RANGE);
    CHECK(explain_at(&s, s.header, work, 6, 3, 7) == PARITY_OUT_OF_RANGE);
    CHECK(explain_at(&s, s.header, work, 6, 3, 1) == PARITY_NOT_IMPLIED); /* assumed */
    CHECK(explain_at(&s, s.header, work, 6, 3, 2) == PARITY_NOT_IMPLIED); /* no value */
    leave(&s);
}

/* Assume's 12 needs a buffer that does not belong to its header: going back with no rows kept leaves variable 1 without
 * the value that its row gives, and the row names no other. */
static void refused_exchange(void)
{
    static const uint8_t sheet[] = {0x00, 0x40, 0x38}; /* 1 = 1 */
    state s = seat(1, 1);
    parity_header foreign;
    CHECK(open_sheet(&s, sheet, sizeof sheet).count == 1 && s.literals[0] == PARITY_TRUE(1));
    foreign = s.header;
    foreign.kept = 0;
    CHECK(parity_back(&foreign, s.work, PARITY_WORK_WORDS, 0) == PARITY_DONE);
    CHECK(assume_at(&s, s.header, PARITY_WORK_WORDS, 1, PARITY_TRUE(1)) == PARITY_NO_EXCHANGE);
    CHECK(s.header.kept == 1 && s.header.depth == 0);
    leave(&s);
}

int main(void)
{
    settled_example();
    contradiction();
    sheets();
    largest_sheet();
    nothing_at_all();
    refused_sheets();
    refused_opening();
    refused_search();
    refused_exchange();
    printf("%d passed, %d failed\n", passed, failed);
    return failed != 0;
}
