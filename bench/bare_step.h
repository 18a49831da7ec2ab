/* bare_step.h: the bare step for one width; bare.c includes it once for each. WORDS coefficient words a row are 64 x
 * WORDS variables and 32 x WORDS rows. */
#define PASTED(name, words) name##_##words
#define NAMED(name, words) PASTED(name, words)
#define state NAMED(state, WORDS)
#define start NAMED(start, WORDS)
#define assume NAMED(assume, WORDS)
#define settle NAMED(settle, WORDS)
#define column_of NAMED(column_of, WORDS)
#define exchange NAMED(exchange, WORDS)
#define follow NAMED(follow, WORDS)
#define list_new NAMED(list_new, WORDS)

static struct {
    struct {
        uint64_t coefficients[WORDS], provenance[(WORDS + 1) / 2], parity;
        size_t basic;
    } rows[32 * WORDS];
    uint64_t known[WORDS], truth[WORDS];
    uint64_t record[64 * WORDS];
    size_t home[64 * WORDS]; /* the row in which a variable became basic */
    size_t kept, depth;
} state;

/* The row gives its basic variable a value, if all its others have one. */
static inline void settle(size_t r)
{
    size_t basic = state.rows[r].basic, i;
    uint64_t own = bit_of(basic), over = 0, odd = state.rows[r].parity;
    for (i = 0; i < WORDS; i++)
        over |= state.rows[r].coefficients[i] & ~state.known[i];
    if (over & ~own)
        return;
    for (i = 0; i < WORDS; i++)
        if ((state.rows[r].coefficients[i] & ~state.known[i]) != (i == basic / 64 ? own : 0))
            return;
    for (i = 0; i < WORDS; i++)
        odd += (uint64_t)__builtin_popcountll(state.rows[r].coefficients[i] & state.truth[i]);
    state.known[basic / 64] |= own;
    if (odd % 2)
        state.truth[basic / 64] |= own;
}

/* Which of the rows from q to below e, 64 at most, have the variable: the lowest bit for row q. Rows are read by eights,
 * and the bits of those from e on dropped. */
static inline uint64_t column_of(size_t q, size_t e, size_t v)
{
    uint64_t x = 0;
    size_t r, i;
    for (r = q; r < e; r += 8) {
        uint64_t eight = 0;
        for (i = 0; i < 8; i++)
            eight |= (state.rows[r + i].coefficients[v / 64] >> (63 - v % 64) & 1) << i;
        x |= eight << (r - q);
    }
    return e - q < 64 ? x & (((uint64_t)1 << (e - q)) - 1) : x;
}

/* The basic variable of row p, which has just got a value, gives way to the row's first variable without one. */
static inline void exchange(size_t p)
{
    size_t u = 0, i, q;
    uint64_t x;
    for (i = 0; i < WORDS; i++)
        if ((x = state.rows[p].coefficients[i] & ~state.known[i]) != 0) {
            u = 64 * i + (size_t)__builtin_clzll(x);
            break;
        }
    state.home[u] = p;
    state.rows[p].basic = u;
    for (q = 0; q < state.kept; q += 64)
        for (x = column_of(q, block_end(q, state.kept), u); x; x &= x - 1) {
            size_t r = q + (size_t)__builtin_ctzll(x);
            if (r != p) {
                for (i = 0; i < WORDS; i++)
                    state.rows[r].coefficients[i] ^= state.rows[p].coefficients[i];
                for (i = 0; i < (WORDS + 1) / 2; i++)
                    state.rows[r].provenance[i] ^= state.rows[p].provenance[i];
                state.rows[r].parity ^= state.rows[p].parity;
            }
            settle(r);
        }
}

/* The rows of a variable that has just got a value and is not basic. */
static inline void follow(size_t v)
{
    size_t q;
    uint64_t x;
    for (q = 0; q < state.kept; q += 64)
        for (x = column_of(q, block_end(q, state.kept), v); x; x &= x - 1)
            settle(q + (size_t)__builtin_ctzll(x));
}

static inline int list_new(const uint64_t *old, uint64_t *literals)
{
    int count = 0;
    size_t i;
    for (i = 0; i < WORDS; i++) {
        uint64_t x = state.known[i] & ~old[i];
        while (x) {
            size_t j = (size_t)__builtin_clzll(x);
            literals[count++] = 2 * (64 * i + j + 1) + !(state.truth[i] >> (63 - j) & 1);
            x ^= bit_of(j);
        }
    }
    return count;
}

static int assume(uint64_t code, uint64_t *literals)
{
    size_t v = code / 2 - 1, p = state.home[v];
    uint64_t own = bit_of(v), old[WORDS];
    if (state.known[v / 64] & own)
        return BARE_HAD;
    state.record[state.depth++] = code;
    state.known[v / 64] |= own;
    if (code % 2 == 0)
        state.truth[v / 64] |= own;
    memcpy(old, state.known, sizeof old);
    if (p < state.kept && state.rows[p].basic == v)
        exchange(p);
    else
        follow(v);
    return list_new(old, literals);
}

static void start(const plain_row *rows, size_t kept)
{
    size_t r;
    memset(&state, 0, sizeof state);
    state.kept = kept;
    for (r = 0; r < kept; r++) {
        memcpy(state.rows[r].coefficients, rows[r].coefficients, sizeof state.rows[r].coefficients);
        memcpy(state.rows[r].provenance, rows[r].provenance, sizeof state.rows[r].provenance);
        state.rows[r].parity = rows[r].parity;
        state.rows[r].basic = rows[r].lead;
        state.home[rows[r].lead] = r;
        settle(r);
    }
}

#undef state
#undef start
#undef assume
#undef settle
#undef column_of
#undef exchange
#undef follow
#undef list_new
#undef NAMED
#undef PASTED
