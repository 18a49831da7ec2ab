/* search FILE: do two circuits differ? A small clause-learning search over ordinary clauses, with the parity module
 * for the rows. FILE states what a difference looks like (README.md has the format); the search says `equal` where
 * nothing can, or `different` and the values that show it.
 *
 * How the module is used: every literal that comes to be true is offered to it, in the order they came. What it
 * implies goes on the trail with no reason noted; parity_explain gives the clause when a conflict asks for it. Each
 * level notes the module's depth, and going back to a level is parity_back to its depth.
 */
#include <parity.h>
#include <stdarg.h>
#include <stdio.h>
#include <stdlib.h>
#include <string.h>

enum { MOST = PARITY_MAX_VARIABLES };

static void fail(const char *format, ...)
{
    va_list items;
    va_start(items, format);
    fprintf(stderr, "search: ");
    vfprintf(stderr, format, items);
    fprintf(stderr, "\n");
    va_end(items);
    exit(2);
}

/* ---- the problem ---- */

typedef struct {
    size_t count;
    uint64_t *codes; /* literals in the module's codes, one of which must be true */
} clause;

static clause *clauses; /* those of the file, then those learnt */
static size_t clause_count, clause_room;

static uint8_t sheet[PARITY_SHEET_BYTES];
static uint64_t store[PARITY_STORE_WORDS];
static size_t sheet_size, variables, row_count;

static struct {
    char name[32];
    size_t first, last; /* variables */
} shown[16];
static size_t shown_count;

static size_t add_clause(const uint64_t *codes, size_t count)
{
    clause *c;
    if (clause_count == clause_room) {
        clause_room = 2 * clause_room + 64;
        clauses = realloc(clauses, clause_room * sizeof *clauses);
        if (!clauses)
            fail("out of memory");
    }
    c = &clauses[clause_count];
    c->count = count;
    c->codes = malloc((count + 1) * sizeof *codes);
    if (!c->codes)
        fail("out of memory");
    memcpy(c->codes, codes, count * sizeof *codes);
    return clause_count++;
}

/* `clause 3 -4 17`: the text after the first word */
static void read_clause(char *text, int line)
{
    uint64_t codes[MOST];
    size_t count = 0;
    char *word, *end;
    for (word = strtok(text, " \n"); word; word = strtok(NULL, " \n")) {
        long literal = strtol(word, &end, 10);
        if (*end || literal == 0 || labs(literal) > MOST || count == MOST)
            fail("line %d: bad literal %s", line, word);
        codes[count++] = literal > 0 ? PARITY_TRUE(literal) : PARITY_FALSE(-literal);
    }
    add_clause(codes, count);
}

static void read_hex(const char *text, int line)
{
    unsigned byte;
    for (; text[0] != '\n' && text[0]; text += 2) {
        if (sheet_size == sizeof sheet || strspn(text, "0123456789ABCDEFabcdef") < 2 || sscanf(text, "%2x", &byte) != 1)
            fail("line %d: bad sheet", line);
        sheet[sheet_size++] = (uint8_t)byte;
    }
}

static void check_variables(void)
{
    size_t i, k;
    for (i = 0; i < clause_count; i++)
        for (k = 0; k < clauses[i].count; k++)
            if (PARITY_VARIABLE(clauses[i].codes[k]) > variables)
                fail("clause %zu names a variable above %zu", i + 1, variables);
    for (i = 0; i < shown_count; i++)
        if (shown[i].first < 1 || shown[i].last > variables)
            fail("show %s is not within 1 to %zu", shown[i].name, variables);
}

static void read_problem(const char *name)
{
    static char text[2 * PARITY_SHEET_BYTES + 2];
    int line = 0, in_sheet = 0;
    parity_reading read;
    FILE *file = fopen(name, "r");
    if (!file)
        fail("cannot read %s", name);
    while (fgets(text, sizeof text, file)) {
        line++;
        if (in_sheet)
            read_hex(text, line);
        else if (strncmp(text, "clause", 6) == 0)
            read_clause(text + 6, line);
        else if (strncmp(text, "show ", 5) == 0 && shown_count < 16 &&
                 sscanf(text, "show %31s %zu %zu", shown[shown_count].name, &shown[shown_count].first,
                        &shown[shown_count].last) == 3)
            shown_count++;
        else if (strcmp(text, "sheet\n") == 0)
            in_sheet = 1;
        else if (text[0] != '#' && text[0] != '\n')
            fail("line %d: neither clause, show nor sheet", line);
    }
    fclose(file);
    read = parity_read(sheet, sheet_size, store, PARITY_STORE_WORDS);
    if (read.number != PARITY_DONE)
        fail("sheet refused with %d", (int)read.number);
    variables = read.n;
    row_count = read.m;
    check_variables();
}

/* ---- the trail and the module's state ---- */

enum { DECIDED = -1, BY_ROWS = -2 }; /* reasons; one from 0 on is a clause */

static uint64_t true_code[MOST + 1]; /* of each variable: its true literal, or 0 */
static size_t level_of[MOST + 1];
static long reason_of[MOST + 1];

static uint64_t trail[MOST]; /* the true literals as they came; the first `offered` were offered to the module */
static size_t trail_size, offered;

static size_t level;
static struct {
    size_t trail_size;
    uint64_t depth;
} before[MOST + 2]; /* each level's decision */

static parity_header header;
static uint64_t work[PARITY_WORK_WORDS];
static uint64_t literals[PARITY_MAX_VARIABLES], rows[PARITY_MAX_ROWS];

static struct {
    long decisions, conflicts, conflicts_by_rows, explanations;
} tally;

static int is_true(uint64_t code)
{
    return true_code[PARITY_VARIABLE(code)] == code;
}

static int is_false(uint64_t code)
{
    return true_code[PARITY_VARIABLE(code)] == PARITY_NOT(code);
}

static void set(uint64_t code, long reason)
{
    uint64_t v = PARITY_VARIABLE(code);
    true_code[v] = code;
    level_of[v] = level;
    reason_of[v] = reason;
    trail[trail_size++] = code;
}

/* Literals the module lists. One whose opposite is on the trail is left: that opposite was not offered yet, and the
 * module will answer conflict when it is. */
static void set_listed(uint64_t count)
{
    uint64_t i;
    for (i = 0; i < count; i++)
        if (!is_true(literals[i]) && !is_false(literals[i]))
            set(literals[i], BY_ROWS);
}

/* The clause by which the rows give v its value. */
static clause explained(uint64_t v)
{
    parity_explaining e =
        parity_explain(header, work, PARITY_WORK_WORDS, literals, PARITY_MAX_VARIABLES, rows, PARITY_MAX_ROWS, v);
    clause c;
    if (e.number != PARITY_DONE)
        fail("explain %d refused with %d", (int)v, (int)e.number);
    tally.explanations++;
    c.count = e.clause;
    c.codes = literals;
    return c;
}

/* 0 where the rows cannot all hold. */
static int open_rows(void)
{
    parity_opening o = parity_open(header, sheet, sheet_size, store, PARITY_STORE_WORDS, work, PARITY_WORK_WORDS,
                                   literals, PARITY_MAX_VARIABLES, rows, PARITY_MAX_ROWS);
    if (o.number == PARITY_UNSATISFIABLE)
        return 0;
    if (o.number != PARITY_DONE)
        fail("open refused with %d", (int)o.number);
    header = o.header;
    set_listed(o.count);
    return 1;
}

static void go_back(size_t to)
{
    size_t start = before[to + 1].trail_size;
    while (trail_size > start)
        true_code[PARITY_VARIABLE(trail[--trail_size])] = 0;
    offered = start; /* all that stood before a decision was offered before it */
    level = to;
    if (parity_back(&header, work, PARITY_WORK_WORDS, before[to + 1].depth) != PARITY_DONE)
        fail("back refused");
}

/* ---- what follows ---- */

/* Unit clauses until there are none. 1: *conflict is a clause of false literals. */
static int follow_clauses(clause *conflict)
{
    int changed;
    do {
        size_t i, k;
        changed = 0;
        for (i = 0; i < clause_count; i++) {
            const clause *c = &clauses[i];
            uint64_t last = 0;
            size_t unset = 0;
            for (k = 0; k < c->count && !is_true(c->codes[k]); k++)
                if (!is_false(c->codes[k])) {
                    last = c->codes[k];
                    unset++;
                }
            if (k < c->count || unset > 1)
                continue;
            if (unset == 0) {
                *conflict = *c;
                return 1;
            }
            set(last, (long)i);
            changed = 1;
        }
    } while (changed);
    return 0;
}

/* Offers the next literal of the trail. 1: *conflict is a clause of false literals. */
static int offer_next(clause *conflict)
{
    parity_assuming a =
        parity_assume(header, work, PARITY_WORK_WORDS, literals, PARITY_MAX_VARIABLES, trail[offered++]);
    header = a.header;
    switch (a.number) {
    case PARITY_DONE:
        set_listed(a.count);
        return 0;
    case PARITY_HELD:
        return 0;
    case PARITY_CONFLICT:
        tally.conflicts_by_rows++;
        *conflict = explained(a.count);
        return 1;
    default:
        fail("assume refused with %d", (int)a.number);
        return 0;
    }
}

static int follow(clause *conflict)
{
    for (;;) {
        if (follow_clauses(conflict))
            return 1;
        if (offered == trail_size)
            return 0;
        if (offer_next(conflict))
            return 1;
    }
}

/* ---- learning ---- */

static double activity[MOST + 1], step = 1;

/* Later conflicts weigh more; all weights shrink together before they grow too large. */
static void age(void)
{
    size_t v;
    step *= 1.1;
    if (step < 1e100)
        return;
    step *= 1e-100;
    for (v = 1; v <= variables; v++)
        activity[v] *= 1e-100;
}

static clause reason(uint64_t v)
{
    return reason_of[v] == BY_ROWS ? explained(v) : clauses[reason_of[v]];
}

/* Replaces literals of this level by their reasons until one is left (the first unique implication point). The clause
 * learnt goes to `learnt`, that literal first and one of the next highest level second; answers its length. */
static size_t learn(clause conflict, uint64_t *learnt)
{
    char seen[MOST + 1] = {0};
    size_t count = 1, here = 0, at = trail_size, i;
    clause c = conflict;
    for (;;) {
        for (i = 0; i < c.count; i++) {
            uint64_t v = PARITY_VARIABLE(c.codes[i]);
            if (seen[v] || level_of[v] == 0)
                continue;
            seen[v] = 1;
            activity[v] += step;
            if (level_of[v] == level)
                here++;
            else
                learnt[count++] = c.codes[i];
        }
        do
            at--;
        while (!seen[PARITY_VARIABLE(trail[at])]);
        if (--here == 0)
            break;
        c = reason(PARITY_VARIABLE(trail[at]));
    }
    age();
    learnt[0] = PARITY_NOT(trail[at]);
    for (i = 2; i < count; i++)
        if (level_of[PARITY_VARIABLE(learnt[i])] > level_of[PARITY_VARIABLE(learnt[1])]) {
            uint64_t other = learnt[1];
            learnt[1] = learnt[i];
            learnt[i] = other;
        }
    return count;
}

/* ---- the search ---- */

/* The unset variable seen most in conflicts lately, the highest of equals; 0: all are set. */
static uint64_t busiest(void)
{
    uint64_t v, best = 0;
    for (v = 1; v <= variables; v++)
        if (!true_code[v] && (!best || activity[v] >= activity[best]))
            best = v;
    return best;
}

/* 1: the trail is an assignment that satisfies clauses and rows. */
static int search(void)
{
    clause conflict;
    if (!open_rows())
        return 0;
    for (;;) {
        if (follow(&conflict)) {
            uint64_t learnt[MOST];
            size_t count, index;
            tally.conflicts++;
            if (level == 0)
                return 0;
            count = learn(conflict, learnt);
            go_back(count > 1 ? level_of[PARITY_VARIABLE(learnt[1])] : 0);
            index = add_clause(learnt, count);
            set(learnt[0], (long)index);
        } else {
            uint64_t v = busiest();
            if (!v)
                return 1;
            tally.decisions++;
            level++;
            before[level].trail_size = trail_size;
            before[level].depth = header.depth;
            set(PARITY_TRUE(v), DECIDED);
        }
    }
}

/* ---- the answer ---- */

static int sheet_bit(size_t i)
{
    return sheet[i / 8] >> (7 - i % 8) & 1;
}

/* Holds the assignment to the clauses and to the bits of the sheet, without the module. */
static void check_assignment(void)
{
    size_t i, k, r, v;
    for (i = 0; i < clause_count; i++) {
        for (k = 0; k < clauses[i].count && !is_true(clauses[i].codes[k]); k++)
            ;
        if (k == clauses[i].count)
            fail("clause %zu does not hold", i + 1);
    }
    for (r = 0; r < row_count; r++) {
        size_t start = 19 + r * (variables + 1);
        int sum = sheet_bit(start + variables);
        for (v = 1; v <= variables; v++)
            sum ^= sheet_bit(start + v - 1) && is_true(PARITY_TRUE(v));
        if (sum)
            fail("row %zu does not hold", r + 1);
    }
}

int main(int argc, char **argv)
{
    size_t i, v;
    int differ;
    if (argc != 2) {
        fprintf(stderr, "usage: search FILE\n");
        return 2;
    }
    read_problem(argv[1]);
    differ = search();
    if (differ) {
        check_assignment();
        printf("different\n");
        for (i = 0; i < shown_count; i++) {
            printf("%-7s", shown[i].name);
            for (v = shown[i].first; v <= shown[i].last; v++)
                putchar(is_true(PARITY_TRUE(v)) ? '1' : '0');
            printf("\n");
        }
    } else {
        printf("equal\n");
    }
    fflush(stdout); /* the answer first, also where both streams go to one file */
    fprintf(stderr, "%ld decisions, %ld conflicts (%ld by rows), %ld explanations\n", tally.decisions, tally.conflicts,
            tally.conflicts_by_rows, tally.explanations);
    for (i = 0; i < clause_count; i++)
        free(clauses[i].codes);
    free(clauses);
    return 0;
}
