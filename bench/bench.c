/* Processor time per verdict of the library. A book is a file of sheets, each behind its byte count in 4 bytes, big-endian.
 *
 * bench BOOK REPEAT      nanoseconds a sheet in the best of REPEAT passes; the slowest sheet's nanoseconds
 * bench BOOK KEEP OUT    writes the KEEP slowest sheets to the book OUT, the slowest first */
#include <stdio.h>
#include <stdlib.h>
#include <time.h>

#include "shambrukit.h"

struct sheet {
    const uint8_t *bytes;
    size_t length;
    double took;
};

static volatile uint64_t answers;

static double now(void)
{
    struct timespec t;
    clock_gettime(CLOCK_PROCESS_CPUTIME_ID, &t);
    return 1e9 * (double)t.tv_sec + (double)t.tv_nsec;
}

static void judge(const struct sheet *sheet)
{
    answers += shambrukit_judge(sheet->bytes, sheet->length).answer;
}

/* All sheets in one go: asking the clock for each would show. */
static double pass(const struct sheet *sheets, size_t count)
{
    double start = now();
    for (size_t i = 0; i < count; i++)
        judge(&sheets[i]);
    return now() - start;
}

/* Each sheet by itself, the better of two. */
static void each(struct sheet *sheets, size_t count)
{
    for (size_t i = 0; i < count; i++) {
        double first = pass(&sheets[i], 1);
        double second = first < 1e8 ? pass(&sheets[i], 1) : first;
        sheets[i].took = first < second ? first : second;
    }
}

static int slower(const void *a, const void *b)
{
    double one = ((const struct sheet *)a)->took, other = ((const struct sheet *)b)->took;
    return (one < other) - (other < one);
}

static int keep(struct sheet *sheets, size_t count, const char *name)
{
    FILE *file = fopen(name, "wb");
    if (!file)
        return 2;
    for (size_t i = 0; i < count; i++)
        fwrite(sheets[i].bytes - 4, 1, sheets[i].length + 4, file);
    return fclose(file) ? 2 : 0;
}

int main(int argc, char **argv)
{
    FILE *file = argc == 3 || argc == 4 ? fopen(argv[1], "rb") : NULL;
    if (!file) {
        fprintf(stderr, "usage: bench BOOK REPEAT, bench BOOK KEEP OUT\n");
        return 2;
    }
    fseek(file, 0, SEEK_END);
    size_t size = (size_t)ftell(file);
    rewind(file);
    uint8_t *book = malloc(size + 1);
    struct sheet *sheets = malloc((size / 4 + 1) * sizeof *sheets);
    if (!book || !sheets || fread(book, 1, size, file) != size)
        return 2;
    fclose(file);

    size_t count = 0;
    for (size_t at = 0; at + 4 <= size;) {
        size_t n = (size_t)book[at] << 24 | (size_t)book[at + 1] << 16 | (size_t)book[at + 2] << 8 | book[at + 3];
        sheets[count++] = (struct sheet){book + at + 4, n, 0};
        at += 4 + n;
    }
    if (count == 0)
        return 2;

    if (argc == 4) {
        size_t most = (size_t)atol(argv[2]);
        each(sheets, count);
        qsort(sheets, count, sizeof *sheets, slower);
        return keep(sheets, most < count ? most : count, argv[3]);
    }
    double best = pass(sheets, count);
    for (long repeat = atol(argv[2]); repeat > 1; repeat--) {
        double took = pass(sheets, count);
        best = took < best ? took : best;
    }
    each(sheets, count);
    double slowest = 0;
    for (size_t i = 0; i < count; i++)
        slowest = slowest < sheets[i].took ? sheets[i].took : slowest;
    printf("%.0f %.0f\n", best / (double)count, slowest);
    return 0;
}
