/* session.c: the session program as a whole, with other builds of it beside it:
 *
 *   session [--smoke] PROGRAM..     prints a table in Markdown
 *
 * Each runs on the longest input there is, a small sheet and commands up to the last byte that counts, in turn, for so many rounds; its text is
 * read through a pipe. The time is from the start of the process to the end of its text, and medians count. */
#define _POSIX_C_SOURCE 200809L
#include "bench.h"
#include <stdlib.h>
#include <string.h>
#include <sys/wait.h>
#include <time.h>
#include <unistd.h>

enum { INPUT = 65536, PROGRAMS = 8 };

static double now_ms(void)
{
    struct timespec t;
    clock_gettime(CLOCK_MONOTONIC, &t);
    return (double)t.tv_sec * 1e3 + (double)t.tv_nsec / 1e6;
}

/* A sheet of 9 variables and 8 rows, and assumes, backs and explains that mostly make sense for it. */
static void make_input(uint8_t *input)
{
    static sample s;
    uint64_t seed = 1;
    size_t at;
    make_sample(&s, SPARSE, 9, 8, 1);
    memcpy(input, s.sheet, s.size);
    for (at = s.size; at + 1 < INPUT; at += 2) {
        static const uint16_t kinds[8] = {1, 1, 1, 1, 2, 3, 3, 3};
        uint64_t x = random_word(&seed);
        uint16_t kind = kinds[x % 8], span = kind == 1 ? 18 : kind == 2 ? 4 : 9, low = kind == 1 ? 2 : kind == 2 ? 0 : 1;
        uint16_t command = (uint16_t)(kind << 14 | (low + x / 8 % span));
        input[at] = (uint8_t)(command >> 8);
        input[at + 1] = (uint8_t)command;
    }
    for (; at < INPUT; at++)
        input[at] = 0;
}

/* Milliseconds of one run on that file; how many bytes it said. */
static double run(const char *program, FILE *input, size_t *said)
{
    static char buffer[1 << 16];
    int ends[2], status;
    ssize_t n;
    double start = now_ms();
    pid_t child;
    if (pipe(ends) != 0)
        exit(2);
    child = fork();
    if (child == 0) {
        lseek(fileno(input), 0, SEEK_SET);
        dup2(fileno(input), 0);
        dup2(ends[1], 1);
        close(ends[0]);
        close(ends[1]);
        execl(program, program, (char *)NULL);
        _exit(127);
    }
    close(ends[1]);
    for (*said = 0; (n = read(ends[0], buffer, sizeof buffer)) > 0;)
        *said += (size_t)n;
    close(ends[0]);
    if (child < 0 || waitpid(child, &status, 0) != child || !WIFEXITED(status) || WEXITSTATUS(status) != 0) {
        fprintf(stderr, "%s did not run to its end\n", program);
        exit(1);
    }
    return now_ms() - start;
}

static int ascending(const void *a, const void *b)
{
    double x = *(const double *)a, y = *(const double *)b;
    return (x > y) - (x < y);
}

int main(int argc, char **argv)
{
    static uint8_t bytes[INPUT];
    static double ms[PROGRAMS][ROUNDS];
    size_t said[PROGRAMS];
    int smoke = argc > 1 && strcmp(argv[1], "--smoke") == 0, rounds = smoke ? 3 : ROUNDS, first = 1 + smoke, i, r;
    FILE *input = tmpfile();
    if (!input || first == argc || argc - first > PROGRAMS)
        return 2;
    make_input(bytes);
    fwrite(bytes, 1, INPUT, input);
    fflush(input);
    for (r = 0; r < rounds; r++)
        for (i = first; i < argc; i++)
            ms[i - first][r] = run(argv[i], input, &said[i - first]);
    printf("| program | ms | bytes of text |\n|---------|---:|--------------:|\n");
    for (i = first; i < argc; i++) {
        qsort(ms[i - first], (size_t)rounds, sizeof **ms, ascending);
        printf("| `%s` | %.2f | %zu |\n", argv[i], ms[i - first][rounds / 2], said[i - first]);
        if (said[i - first] != said[0])
            fprintf(stderr, "%s says another text\n", argv[i]);
    }
    return 0;
}
