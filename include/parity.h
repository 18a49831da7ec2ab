/* parity.h: constraints over the two-element field, for search programs.
 *
 * The module holds a system of parity constraints  x1 + .. + xk = p  (mod 2), takes assumed literals
 * one by one, and reports the literals they imply or a conflict, with explanations and withdrawal.
 * Ordinary clauses, branching, restarts and learning stay with the caller.
 *
 *   state the problem   parity_open      a sheet of rows becomes a state; literals implied by the rows alone
 *   search              parity_assume    one more literal: held, conflict, or taken with what it implies
 *                       parity_back      withdraw all but the first d taken assumptions
 *                       parity_explain   why a variable has its value, as a clause and as rows
 *   sheets              parity_read      sheet to row store
 *                       parity_write     row store to sheet
 *
 * Link with target/staticlib/libcapi.a (x86-64 Linux); it needs nothing else.
 *
 * WHO OWNS WHAT. The caller owns everything. The module allocates nothing, keeps no pointer after a call
 * and has no variable of its own. A state is a header and the first PARITY_WORK_WORDS words of a working
 * buffer, nothing else: keep the two together, copy both and you have a second state. Each call takes the
 * header that the last one handed back; parity_back lowers it in place and parity_explain leaves it as it is.
 * An earlier header no longer belongs to the buffer: to go back call parity_back, and do not restore a saved
 * header without the copy of the buffer that went with it. The words of the working buffer are the module's
 * business; a buffer that does not belong to its header gets a safe answer and no other promise.
 *
 * SLICES. A buffer is lent as a pointer and its number of ELEMENTS (bytes for sheets, words elsewhere).
 * The pointer is aligned for its type; with 0 elements it may be null. The header lent to parity_back is
 * aligned and not null. The slices of one call must not overlap, and none may contain that header: the module
 * does not check this. A buffer may be longer than asked. What lies past the last place used keeps what it
 * had, and so does a buffer whose list is not given.
 *
 * THREADS. Nothing is shared. Different threads may work on different states at the same time; one state is
 * used by one thread at a time.
 *
 * REFUSALS. A refused call changes nothing: neither the header nor any buffer.
 */
#ifndef PARITY_H
#define PARITY_H

#include <stddef.h>
#include <stdint.h>

#ifdef __cplusplus
extern "C" {
#endif

typedef char parity_needs_64_bits[sizeof(size_t) == 8 ? 1 : -1];

/* ---- Sizes ------------------------------------------------------------------------------------------------
 * n variables and m rows, both numbered from 1. Buffers of the sizes below serve every sheet. */

#define PARITY_MAX_VARIABLES 512 /* n; and words for a list of literals or a clause */
#define PARITY_MAX_ROWS 256      /* m; and words for a list of rows */
#define PARITY_WORK_WORDS 4096   /* a working buffer, whatever n and m are */
#define PARITY_ROW_WORDS 9       /* one row of a row store */
#define PARITY_STORE_WORDS (PARITY_ROW_WORDS * PARITY_MAX_ROWS)
#define PARITY_SHEET_BYTES 16419 /* the longest sheet */

/* The bytes of a sheet of n variables and m rows, within the bounds above. */
#define PARITY_SHEET_SIZE(n, m) ((19 + (size_t)(m) * ((size_t)(n) + 1) + 7) / 8)

/* ---- Literals ---------------------------------------------------------------------------------------------
 * A literal code is 2 * variable for true and 2 * variable + 1 for false. */

#define PARITY_TRUE(variable) (2 * (uint64_t)(variable))
#define PARITY_FALSE(variable) (2 * (uint64_t)(variable) + 1)
#define PARITY_NOT(code) ((uint64_t)(code) ^ 1)
#define PARITY_VARIABLE(code) ((uint64_t)(code) / 2)

/* ---- Numbers that calls answer ----------------------------------------------------------------------------
 * 0 is the plain answer of each call; 1 to 12 are refusals; the three above 99 are answers of their own. */

#define PARITY_DONE 0

#define PARITY_SHEET_SHORT 1    /* sheet under 3 bytes, or shorter than its own size */
#define PARITY_MANY_VARIABLES 2 /* n above 512 */
#define PARITY_MANY_ROWS 3      /* m above 256 */
#define PARITY_SHEET_LONG 4     /* sheet longer than its own size */
#define PARITY_UNCLEAN 5        /* padding not zero; parity_write: a bit past variable n or a parity word above 1 */
#define PARITY_LENT_SHORT 6     /* work under 4,096 words, or store under 9 * m words */
#define PARITY_ANSWER_SHORT 7   /* literals or clause under n words, rows under m words, written sheet under its size */
#define PARITY_OUT_OF_RANGE 8   /* literal code outside 2 .. 2n + 1, or variable outside 1 .. n */
#define PARITY_ABOVE_DEPTH 9    /* back to a depth above the present one */
#define PARITY_NOT_IMPLIED 10   /* explain: the variable has no value, or its value was assumed */
#define PARITY_NOT_OPEN 11      /* header not open, or n > 512, m > 256, kept > min(n, m) or depth > n */
#define PARITY_NO_EXCHANGE 12   /* assume: no way to take the literal; never on a state the module made */

#define PARITY_HELD 100          /* assume: the variable has that value already */
#define PARITY_CONFLICT 101      /* assume: the variable has the other value */
#define PARITY_UNSATISFIABLE 102 /* open: the rows contradict each other */

/* Where several refusals apply the first of the call's line is given:
 *
 *   parity_read      1 (3 bytes), 2, 3, 1 or 4 (size), 5, 6
 *   parity_open      1 (3 bytes), 2, 3, 1 or 4 (size), 5, 6, 7
 *   parity_write     2, 3, 6, 5, 7
 *   parity_assume    11, 6, 7, 8, 12
 *   parity_back      11, 6, 9
 *   parity_explain   11, 6, 7, 8, 10
 *
 * Refusal 7 is judged whether or not that list will be given. In the answers below a field that the number gives no
 * meaning is 0; a returned header is always the one to go on with. */

/* ---- The header of a state -------------------------------------------------------------------------------- */

typedef struct parity_header {
    uint64_t open;  /* 1: open; anything else: not open. Start with a header of zeros. */
    uint64_t n;     /* variables */
    uint64_t m;     /* rows of the sheet */
    uint64_t kept;  /* rows that are not sums of kept earlier ones */
    uint64_t depth; /* assumptions taken and not withdrawn */
} parity_header;

/* ---- State the problem ------------------------------------------------------------------------------------ */

/* PARITY_DONE: header is open, at depth 0; the first count words of literals are the literals the rows imply,
 * ascending by variable. PARITY_UNSATISFIABLE: the first count words of rows are the numbers of rows that contradict
 * each other, ascending; header is all zeros. Else: header is the old one, whose state still stands. */
typedef struct parity_opening {
    uint64_t number, count;
    parity_header header;
} parity_opening;

/* Opens a sheet: store receives its rows, work the state. Either answer, done or unsatisfiable, ends the state that
 * work held before. old is only handed back on a refusal. */
parity_opening parity_open(parity_header old, const uint8_t *sheet, size_t sheet_len, uint64_t *store, size_t store_len,
                           uint64_t *work, size_t work_len, uint64_t *literals, size_t literals_len, uint64_t *rows,
                           size_t rows_len);

/* ---- Search ----------------------------------------------------------------------------------------------- */

/* PARITY_DONE: taken; the first count words of literals are the literals newly implied, ascending by variable, the
 * taken one not among them; header's depth is one more. PARITY_HELD: nothing changed. PARITY_CONFLICT: nothing changed;
 * count is the variable, and parity_explain of it gives the clause unless it was itself assumed. That clause begins
 * with the literal of the value that the variable has, the opposite of the literal offered. */
typedef struct parity_assuming {
    uint64_t number, count;
    parity_header header;
} parity_assuming;

/* Offers one literal. A held or conflicting literal takes no place: the depth counts taken ones only, so note the
 * depth at each decision and go back to the noted one. */
parity_assuming parity_assume(parity_header h, uint64_t *work, size_t work_len, uint64_t *literals, size_t literals_len,
                              uint64_t code);

/* Keeps the first `depth` taken assumptions and drops the rest with all that needed them. Answers PARITY_DONE, with
 * h->depth lowered in place, or the refusal. */
uint64_t parity_back(parity_header *h, uint64_t *work, size_t work_len, uint64_t depth);

/* PARITY_DONE, in an answer e: the first e.clause words of clause are the variable's own literal and then the
 * negations of the assumptions it follows from, ascending by variable; the first e.rows words of rows are the numbers
 * of the kept rows that give it, ascending. */
typedef struct parity_explaining {
    uint64_t number, clause, rows;
} parity_explaining;

/* Explains an implied variable. There is one explanation: the sum of these rows and assumptions is exactly the
 * variable and its value. It changes only clause and rows. */
parity_explaining parity_explain(parity_header h, const uint64_t *work, size_t work_len, uint64_t *clause,
                                 size_t clause_len, uint64_t *rows, size_t rows_len, uint64_t variable);

/* ---- Sheets -----------------------------------------------------------------------------------------------
 * A sheet is bit-packed, most significant bit first: 10 bits n, 9 bits m, then for each row n coefficient bits,
 * variable 1 first, and one parity bit; then zero bits to the end of the byte. A row store has nine words a row: eight
 * coefficient words, variable 1 in the top bit of the first, and a word that is 0 or 1, the parity. Bits past variable
 * n are 0. */

typedef struct parity_reading {
    uint64_t number, n, m;
} parity_reading;

typedef struct parity_writing {
    uint64_t number, size;
} parity_writing;

/* Reads a sheet into the first 9 * m words of store: all nine words of each row are written. */
parity_reading parity_read(const uint8_t *sheet, size_t sheet_len, uint64_t *store, size_t store_len);

/* Writes the first 9 * m words of store as a sheet into the first size bytes of sheet. */
parity_writing parity_write(size_t n, size_t m, const uint64_t *store, size_t store_len, uint8_t *sheet,
                            size_t sheet_len);

/* ---- Example ----------------------------------------------------------------------------------------------
 *
 *   static uint64_t store[PARITY_STORE_WORDS], work[PARITY_WORK_WORDS];
 *   static uint64_t literals[PARITY_MAX_VARIABLES], rows[PARITY_MAX_ROWS];
 *   const uint8_t sheet[] = {0x01, 0x80, 0x72, 0xD6, 0x1A};      1+4+6 = 1, 2+4+5 = 0, 3+4+6 = 0
 *   parity_header none = {0, 0, 0, 0, 0};
 *
 *   parity_opening o = parity_open(none, sheet, sizeof sheet, store, PARITY_STORE_WORDS, work, PARITY_WORK_WORDS,
 *                                  literals, PARITY_MAX_VARIABLES, rows, PARITY_MAX_ROWS);
 *   parity_header h = o.header;                                  o.number PARITY_DONE, h.kept 3, o.count 0
 *
 *   parity_assuming a = parity_assume(h, work, PARITY_WORK_WORDS, literals, PARITY_MAX_VARIABLES, PARITY_TRUE(1));
 *   h = a.header;                                                a.count 1, literals[0] PARITY_FALSE(3)
 *
 *   parity_explaining e = parity_explain(h, work, PARITY_WORK_WORDS, literals, PARITY_MAX_VARIABLES, rows,
 *                                        PARITY_MAX_ROWS, 3);
 *                                                                clause: 3 false or 1 false; rows: 1 and 3
 *   parity_back(&h, work, PARITY_WORK_WORDS, 0);                 h.depth 0, variable 3 free again
 */

#ifdef __cplusplus
}
#endif
#endif
