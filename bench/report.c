/* report.c: the tables, in Markdown that is read as it stands, and the plot. */
#include "bench.h"
#include <math.h>
#include <stdlib.h>
#include <string.h>

/* ---- what is measured of a system: medians over its rounds ---- */

static int ascending(const void *a, const void *b)
{
    double x = *(const double *)a, y = *(const double *)b;
    return (x > y) - (x < y);
}

static double median(const timing *t, double (*of)(const double *us))
{
    double values[ROUNDS];
    int i;
    for (i = 0; i < t->rounds; i++)
        values[i] = of(t->us[i]);
    qsort(values, (size_t)t->rounds, sizeof *values, ascending);
    return values[t->rounds / 2];
}

static double by(double a, double b)
{
    return b > 0 ? a / b : 0;
}

static double open_us(const double *us)
{
    return us[OPEN];
}

static double plain_us(const double *us)
{
    return us[DECODE] + us[PLAIN];
}

static double m4ri_us(const double *us)
{
    return us[M4RI];
}

static double take_us(const double *us)
{
    return us[TAKE];
}

static double back_us(const double *us)
{
    return us[BACK];
}

static double explain_us(const double *us)
{
    return us[EXPLAIN];
}

static double open_m4ri(const double *us)
{
    return by(us[OPEN], us[M4RI]);
}

static double elim_plain(const double *us)
{
    return by(us[OPEN] - us[READ], us[PLAIN]);
}

static double read_open(const double *us)
{
    return by(us[READ], us[OPEN]);
}

static double write_read(const double *us)
{
    return by(us[WRITE], us[READ]);
}

static double assume_open(const double *us)
{
    return by(us[ASSUME], us[OPEN]);
}

static double take_open(const double *us)
{
    return by(us[TAKE], us[OPEN]);
}

static double take_bare(const double *us)
{
    return by(us[TAKE], us[BARE_TAKE]);
}

static double bare_assume_open(const double *us)
{
    return by(us[BARE_ASSUME], us[OPEN]);
}

static double bare_take_open(const double *us)
{
    return by(us[BARE_TAKE], us[OPEN]);
}

static double back_open(const double *us)
{
    return by(us[BACK], us[OPEN]);
}

static double explain_open(const double *us)
{
    return by(us[EXPLAIN], us[OPEN]);
}

static double explain_take(const double *us)
{
    return by(us[EXPLAIN], us[TAKE]);
}

/* What the plot and the growth tables show; plain C's decode counts as M4RI's does. */
static const struct {
    const char *name, *colour;
    double (*time)(const double *us);
} curves[] = {{"open", "#b03060", open_us}, {"plain C", "#4060b0", plain_us}, {"M4RI", "#308050", m4ri_us},
              {"take", "#c07030", take_us}, {"back", "#8050a0", back_us},     {"explain", "#707070", explain_us}};

enum { CURVES = sizeof curves / sizeof *curves, OF_M4RI = 2 };

/* The slope of log time over log size, by least squares: the exponent of the growth. */
static double growth(const timing *t, double (*time)(const double *us), int over_m)
{
    double sx = 0, sy = 0, sxx = 0, sxy = 0;
    int i;
    for (i = 0; i < STEPS; i++) {
        double x = log((double)(over_m ? t[i].m : t[i].n)), y = log(median(&t[i], time));
        sx += x;
        sy += y;
        sxx += x * x;
        sxy += x * y;
    }
    return (STEPS * sxy - sx * sy) / (STEPS * sxx - sx * sx);
}

/* ---- tables ---- */

static const struct {
    const char *name;
    double (*of)(const double *us);
} ratios[] = {{"open/M4RI", open_m4ri},   {"elim/plain", elim_plain},         {"read/open", read_open},
              {"write/read", write_read}, {"assume/open", assume_open},       {"bare assume/open", bare_assume_open},
              {"take/open", take_open},   {"bare take/open", bare_take_open}, {"take/bare", take_bare},
              {"back/open", back_open},   {"explain/open", explain_open}};

enum { RATIOS = sizeof ratios / sizeof *ratios };

/* A number, or a dash for one that is missing. */
static void cell(FILE *out, int width, int decimals, double number)
{
    if (number > 0)
        fprintf(out, " %*.*f |", width, decimals, number);
    else
        fprintf(out, " %*s |", width, "-");
}

static void system_table(FILE *out, const results *r)
{
    int i, k;
    fprintf(out, "| system    |   n |   m |  open us |");
    for (k = 0; k < RATIOS; k++)
        fprintf(out, " %s |", ratios[k].name);
    fprintf(out, "\n|-----------|----:|----:|---------:|");
    for (k = 0; k < RATIOS; k++)
        fprintf(out, "%.*s:|", (int)strlen(ratios[k].name) + 1, "--------------------");
    for (i = 0; i < SYSTEMS; i++) {
        const timing *t = &r->systems[i];
        fprintf(out, "\n| %-9s | %3zu | %3zu | %8.1f |", family_names[t->family], t->n, t->m, median(t, open_us));
        for (k = 0; k < RATIOS; k++)
            cell(out, (int)strlen(ratios[k].name), 3, median(t, ratios[k].of));
    }
    fprintf(out, "\n");
}

static void growth_table(FILE *out, const timing *t, int over_m)
{
    int i, k;
    fprintf(out, "|   n |   m |");
    for (k = 0; k < CURVES; k++)
        fprintf(out, " %8s |", curves[k].name);
    fprintf(out, "\n|----:|----:|");
    for (k = 0; k < CURVES; k++)
        fprintf(out, "---------:|");
    fprintf(out, "\n");
    for (i = 0; i < STEPS; i++) {
        fprintf(out, "| %3zu | %3zu |", t[i].n, t[i].m);
        for (k = 0; k < CURVES; k++)
            cell(out, 8, 2, median(&t[i], curves[k].time));
        fprintf(out, "\n");
    }
    fprintf(out, "\nTime grows as the power");
    for (k = 0; k < CURVES; k++)
        if (k != OF_M4RI || m4ri_there())
            fprintf(out, "%s %.2f (%s)", k ? "," : "", growth(t, curves[k].time, over_m), curves[k].name);
    fprintf(out, " of %s.\n", over_m ? "m" : "n");
}

/* An aim, and the systems of at least so many variables that miss it. */
static void aim(FILE *out, const results *r, const char *what, double (*of)(const double *us), double most, size_t from)
{
    int i, measured = 0, missed = 0;
    fprintf(out, "- %s at most %g: ", what, most);
    for (i = 0; i < SYSTEMS; i++) {
        const timing *t = &r->systems[i];
        double got = median(t, of);
        measured += got > 0;
        if (t->n >= from && got > most)
            fprintf(out, "%s%s %zu (%.3f)", missed++ ? ", " : "missed by ", family_names[t->family], t->n, got);
    }
    fprintf(out, "%s\n", missed ? "" : measured ? "met" : "not measured");
}

void write_report(FILE *out, const results *r)
{
    fprintf(out,
            "# Benchmark\n\nMade by `bench/run`. One process, several seeded systems of each kind in turn, medians "
            "over %d rounds in "
            "each of which all contestants run; ratios carry over to other machines, times do not.\n",
            r->systems[0].rounds);
    if (!m4ri_there())
        fprintf(out, "M4RI (libm4ri-dev) is not installed here, so its columns are empty.\n");
    fprintf(out,
            "\n- open/M4RI: opening, reading included, against a plain C decode and `mzd_echelonize_m4ri` on "
            "coefficients, parity and provenance\n"
            "- elim/plain: opening less reading, against the same elimination in plain C (`bench/plain.c`, gcc -O3, "
            "the best of four placements in memory)\n"
            "- assume/open: a literal of each variable, offered in a random order; about half are taken, the others "
            "have a value by then\n"
            "- take/open: the taken ones alone\n"
            "- bare assume, bare take: the same literals by the step of assume in C with nothing around it, its rows "
            "as wide as the system and no wider (`bench/bare.c`)\n"
            "- back/open: steps of an eighth of the depth; explain/open: each implied variable\n\n");
    system_table(out, r);
    fprintf(out, "\n## Aims\n\n");
    aim(out, r, "open/M4RI", open_m4ri, 1.0, 0);
    aim(out, r, "elim/plain", elim_plain, 1.2, 0);
    aim(out, r, "assume/open", assume_open, 0.01, 0);
    aim(out, r, "take/open", take_open, 0.01, 0);
    aim(out, r, "explain against take", explain_take, 1.0, 0);
    aim(out, r, "read/open, for 256 rows of 512 variables,", read_open, 0.1, 512);
    aim(out, r, "write/read, for 256 rows of 512 variables,", write_read, 2.0, 512);
    fprintf(out, "\n## Growth: dense, m = n / 2, microseconds\n\n");
    growth_table(out, r->by_n, 0);
    fprintf(out, "\n## Growth: dense, n = 512, microseconds\n\n");
    growth_table(out, r->by_m, 1);
    fprintf(out, "\n![The calls by size](benchmark.svg)\n");
}

/* ---- plot: two panels, both axes logarithmic ---- */

enum { WIDTH = 380, HEIGHT = 300, LEFT = 60, TOP = 50, GAP = 90 };

typedef struct {
    double left, least, most; /* of the time axis, as powers of ten */
    double from, to;          /* of the size axis */
} panel;

static double x_of(const panel *p, double size)
{
    return p->left + WIDTH * (log(size) - log(p->from)) / (log(p->to) - log(p->from));
}

static double y_of(const panel *p, double us)
{
    return TOP + HEIGHT * (p->most - log10(us)) / (p->most - p->least);
}

static void axes(FILE *out, const panel *p, const char *title)
{
    double power, size;
    fprintf(out, "<text x=\"%.0f\" y=\"%d\" font-size=\"14\">%s</text>\n", p->left, TOP - 20, title);
    for (power = p->least; power <= p->most; power++) {
        double y = y_of(p, pow(10, power));
        fprintf(out, "<path d=\"M%.1f %.1fh%d\" stroke=\"#ddd\"/>\n", p->left, y, WIDTH);
        fprintf(out, "<text x=\"%.1f\" y=\"%.1f\" text-anchor=\"end\">%g us</text>\n", p->left - 6, y + 4,
                pow(10, power));
    }
    for (size = p->from; size <= p->to; size *= 2) {
        fprintf(out, "<path d=\"M%.1f %dv%d\" stroke=\"#ddd\"/>\n", x_of(p, size), TOP, HEIGHT);
        fprintf(out, "<text x=\"%.1f\" y=\"%d\" text-anchor=\"middle\">%g</text>\n", x_of(p, size), TOP + HEIGHT + 18,
                size);
    }
}

static void draw(FILE *out, const panel *p, const timing *t, int over_m)
{
    int i, k;
    for (k = 0; k < CURVES; k++) {
        if (k == OF_M4RI && !m4ri_there())
            continue;
        fprintf(out, "<polyline fill=\"none\" stroke=\"%s\" stroke-width=\"2\" points=\"", curves[k].colour);
        for (i = 0; i < STEPS; i++)
            fprintf(out, "%.1f,%.1f ", x_of(p, (double)(over_m ? t[i].m : t[i].n)),
                    y_of(p, median(&t[i], curves[k].time)));
        fprintf(out, "\"/>\n");
    }
}

static void legend(FILE *out)
{
    int k;
    for (k = 0; k < CURVES; k++)
        fprintf(out, "<path d=\"M%d %dh24\" stroke=\"%s\" stroke-width=\"2\"/><text x=\"%d\" y=\"%d\">%s</text>\n",
                LEFT + 100 * k, TOP + HEIGHT + 46, curves[k].colour, LEFT + 100 * k + 30, TOP + HEIGHT + 50,
                curves[k].name);
}

/* Whole powers of ten around all times of both panels. */
static void bounds(const results *r, double *least, double *most)
{
    int i, k;
    *least = 9;
    *most = -9;
    for (i = 0; i < 2 * STEPS; i++)
        for (k = 0; k < CURVES; k++) {
            double us = median(i < STEPS ? &r->by_n[i] : &r->by_m[i - STEPS], curves[k].time);
            if (us > 0) {
                *least = fmin(*least, floor(log10(us)));
                *most = fmax(*most, ceil(log10(us)));
            }
        }
}

void write_plot(FILE *out, const results *r)
{
    panel n = {LEFT, 0, 0, 64, 512}, m = {LEFT + WIDTH + GAP, 0, 0, 32, 256};
    bounds(r, &n.least, &n.most);
    m.least = n.least;
    m.most = n.most;
    fprintf(out,
            "<svg xmlns=\"http://www.w3.org/2000/svg\" width=\"%d\" height=\"%d\" font-family=\"sans-serif\" "
            "font-size=\"12\">\n",
            LEFT + 2 * WIDTH + GAP + 30, TOP + HEIGHT + 64);
    fprintf(out, "<rect width=\"100%%\" height=\"100%%\" fill=\"white\"/>\n");
    axes(out, &n, "Dense sheets by n, m = n / 2");
    draw(out, &n, r->by_n, 0);
    axes(out, &m, "Dense sheets by m, n = 512");
    draw(out, &m, r->by_m, 1);
    legend(out);
    fprintf(out, "</svg>\n");
}
