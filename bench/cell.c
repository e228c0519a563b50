/* cell FILE PATTERNS RUNS: all patterns of a cell in one call, beside a call of `dachsmond_totals` for each. The counts
   are compared first; then a line: the name of the file PATTERNS, the nanoseconds of the single calls, and those of the
   one call. */
#include "../include/dachsmond.h"
#include "measure.h"
#include <inttypes.h>
#include <stdio.h>
#include <stdlib.h>
#include <string.h>
#include <time.h>

static Trace trace;
static Pattern patterns[64];
static Counts counts[64];
static dachsmond_tally tallies[64];
static uint8_t bytes[64 * MAX_NODES];
static uint32_t ends[64];
static size_t many, length;

static uint64_t now(void)
{
    struct timespec t;
    clock_gettime(CLOCK_MONOTONIC, &t);
    return (uint64_t)t.tv_sec * 1000000000u + (uint64_t)t.tv_nsec;
}

static void one_by_one(void)
{
    for (size_t i = 0; i < many; i++) counts[i] = library_totals(&patterns[i], &trace, trace.rows);
}

static void together(void)
{
    dachsmond_told r = dachsmond_tallies(dachsmond_old_rules(), trace.names, trace.rows, bytes, length, ends, many,
                                         trace.states, trace.rows * trace.names, tallies, many);
    if (r.number) fprintf(stderr, "tallies: refused with %u at %zu\n", r.number, r.place), exit(1);
}

static uint64_t least(void (*job)(void), int runs)
{
    uint64_t most = UINT64_MAX;
    for (int i = 0; i < runs; i++) {
        uint64_t from = now();
        job();
        uint64_t took = now() - from;
        if (took < most) most = took;
    }
    return most;
}

static void compare(void)
{
    one_by_one();
    together();
    for (size_t i = 0; i < many; i++)
        if (counts[i].yes != tallies[i].yes || counts[i].no != tallies[i].no || counts[i].unknown != tallies[i].unknown)
            fprintf(stderr, "pattern %zu has other totals in one call\n", i), exit(1);
}

int main(int argc, char **argv)
{
    static uint8_t file[4 << 20];
    char text[4200];
    if (argc < 4) return fprintf(stderr, "usage: cell FILE PATTERNS RUNS\n"), 2;
    FILE *in = fopen(argv[1], "rb"), *lines = fopen(argv[2], "r");
    if (!in || !lines) return perror(in ? argv[2] : argv[1]), 1;
    library_read(file, fread(file, 1, sizeof file, in), &trace);
    while (many < 64 && fgets(text, sizeof text, lines)) {
        text[strcspn(text, "\n")] = 0;
        library_tree(text, &trace, &patterns[many]);
        memcpy(bytes + length, patterns[many].tree, patterns[many].length);
        length += patterns[many].length;
        ends[many++] = (uint32_t)length;
    }
    compare();
    int runs = atoi(argv[3]);
    const char *name = strrchr(argv[2], '/') ? strrchr(argv[2], '/') + 1 : argv[2];
    if (runs) printf("%s\t%" PRIu64 "\t%" PRIu64 "\t%zu\n", name, least(one_by_one, runs), least(together, runs), many);
}
