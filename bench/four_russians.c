/* four_russians.c: M4RI on the matrix of coefficients, parity and provenance. Built without WITH_M4RI it is absent. */
#include "bench.h"

#ifdef WITH_M4RI
#include <m4ri/m4ri.h>

static mzd_t *matrix;

int m4ri_there(void)
{
    return 1;
}

void m4ri_start(size_t n, size_t m)
{
    matrix = mzd_init((rci_t)m, (rci_t)(n + 1 + m));
}

void m4ri_open(const uint8_t *sheet, size_t n, size_t m)
{
    size_t at = 19, r, i;
    mzd_set_ui(matrix, 0);
    for (r = 0; r < m; r++) {
        for (i = 0; i <= n; i++, at++)
            mzd_write_bit(matrix, (rci_t)r, (rci_t)i, sheet[at / 8] >> (7 - at % 8) & 1);
        mzd_write_bit(matrix, (rci_t)r, (rci_t)(n + 1 + r), 1);
    }
    mzd_echelonize_m4ri(matrix, 1, 0);
}

void m4ri_end(void)
{
    mzd_free(matrix);
}
#else
int m4ri_there(void)
{
    return 0;
}

void m4ri_start(size_t n, size_t m)
{
    (void)n;
    (void)m;
}

void m4ri_open(const uint8_t *sheet, size_t n, size_t m)
{
    (void)sheet;
    (void)n;
    (void)m;
}

void m4ri_end(void)
{
}
#endif
