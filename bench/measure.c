/* measure FILE RUNS: the C twin, the library and the loops by hand on the same trace. What they count, answer, read
   and rewrite is compared before it is timed; a difference ends the program with a message and status 1. Each line
   that is printed has a section, a label and times in nanoseconds, with tabs between:
     counts     yes, no and unknown of the first pattern, for those who are not in this program
     whole      reading, or the totals of a pattern: the twin, the library, by hand (0: there is none)
     beyond     the same of a pattern that the target is not about
     call       one row or one push: by tree twin and library, by lists twin and library
     growing    alternatives: their totals twin and library, rewriting alone twin and library
     rows       rows: reading them twin and library, the totals of the first pattern twin and library
   A time is the least over RUNS runs; with 0 RUNS all is compared and nothing is timed. In a run each side has its
   turn, and does what is short many times. Runs that take over LIMIT seconds together are stopped, but never before
   the third. The place of the code by itself makes a difference, to the twin and to the library. So the program is
   built for several places: PLACE bytes that do nothing stand before all that is linked behind this file. */
#include "measure.h"
#include <stdio.h>
#include <stdlib.h>
#include <string.h>
#include <time.h>

#define SPELLED(x) #x
#define PAD(bytes) __asm__(".text\n.skip " SPELLED(bytes) ", 0x90")
PAD(PLACE);

enum { SHORT = 200000, LIMIT = 4, WINDOW = 16, SOME = 1000, FEW = 16 };

static int runs;
static uint8_t whole[4 << 20], file[4 << 20];
static size_t whole_length, length;
static Trace trace;

static long now(void)
{
    struct timespec t;
    clock_gettime(CLOCK_MONOTONIC, &t);
    return t.tv_sec * 1000000000L + t.tv_nsec;
}

static void differ(const char *what, const char *label)
{
    fprintf(stderr, "the library and C differ in %s: %s\n", what, label);
    exit(1);
}

typedef void Job(void);

/* The least time of each job. */
static void least(int many, Job *const job[], double took[])
{
    long start = now(), repeat[4];
    for (int k = 0; k < many; k++) {
        long a = now();
        job[k]();
        repeat[k] = 1 + SHORT / (now() - a + 1);
    }
    for (int i = 0; i < runs && (i < 3 || now() - start < LIMIT * 1000000000L); i++)
        for (int k = 0; k < many; k++) {
            long a = now();
            for (long r = repeat[k]; r > 0; r--) job[k]();
            double t = (double)(now() - a) / (double)repeat[k];
            if (i == 0 || t < took[k]) took[k] = t;
        }
}

/* how many calls of one row or push a job makes */
static int together = 1;

static void say(const char *section, const char *label, int many, Job *const job[])
{
    double took[4] = {0, 0, 0, 0};
    if (runs == 0) return;
    least(many, job, took);
    printf("%s\t%s", section, label);
    for (int k = 0; k < 4; k++) printf("\t%.1f", took[k] / together);
    printf("\n");
    fflush(stdout);
}

/* What the jobs are about: the pattern at hand (the twin has its own copy), and how many rows. What each side said
   last, and how many rows it was asked one by one. */
static Pattern by_library;
static size_t rows;
static Counts said[3];
static Matched told[2];
static size_t turn[2];

static void twin_reads(void) { twin_read(file, length); }
static void library_reads(void) { library_read(file, length, &trace); }
static void twin_counts(void) { said[0] = twin_totals(rows); }
static void library_counts(void) { said[1] = library_totals(&by_library, &trace, rows); }
static void hand_counts_chain(void) { said[2] = by_hand_chain(file, length); }
static void hand_counts_rise(void) { said[2] = by_hand_rise(file, length); }
static void twin_rewrites(void)
{
    if (!twin_rewrite(&twin, trace.names)) exit(1);
}
static void library_rewrites(void) { library_rewrite(&by_library, trace.names); }

/* One of the first `cycle` rows after the other, with WINDOW rows before it; or pushed, at times that rise. By tree
   the twin rewrites each time. */
static size_t cycle = SOME;

static void ask(int side, bool push, bool lists)
{
    size_t at = turn[side]++, names = trace.names;
    const uint8_t *row = trace.states + at % cycle * names;
    const uint64_t *time = trace.times + at % cycle;
    if (side == 1) {
        told[1] = push ? library_push(&by_library, lists, names, at, row)
                       : library_row(&by_library, lists, names, time, row, WINDOW);
        return;
    }
    if (!lists) twin_rewrites();
    told[0] = push ? twin_push(names, at, row) : twin_row(names, time, row, WINDOW);
}

#define ASKS(name, side, push, lists) \
    static void name(void) { for (int i = 0; i < together; i++) ask(side, push, lists); }
ASKS(twin_row_by_tree, 0, false, false)
ASKS(twin_row_by_lists, 0, false, true)
ASKS(twin_push_by_tree, 0, true, false)
ASKS(twin_push_by_lists, 0, true, true)
ASKS(library_row_by_tree, 1, false, false)
ASKS(library_row_by_lists, 1, false, true)
ASKS(library_push_by_tree, 1, true, false)
ASKS(library_push_by_lists, 1, true, true)

/* Reads the text, rewrites by both sides, and compares the lists. */
static void take(const char *label, const char *text)
{
    library_tree(text, &trace, &by_library);
    twin.length = by_library.length;
    memcpy(twin.tree, by_library.tree, by_library.length);
    twin_rewrites();
    library_rewrites();
    by_library.all_steps = twin.all_steps;
    by_library.all_tests = twin.all_tests;
    if (twin.alternatives != by_library.alternatives ||
        memcmp(twin.steps, by_library.steps, twin.alternatives) ||
        memcmp(twin.tests, by_library.tests, twin.all_steps) ||
        memcmp(twin.edges, by_library.edges, twin.all_tests) ||
        memcmp(twin.operands, by_library.operands, twin.all_tests * sizeof *twin.operands))
        differ("alternatives", label);
}

static bool same(Counts a, Counts b) { return a.yes == b.yes && a.no == b.no && a.unknown == b.unknown; }

static void compare_counts(const char *label, Job *by_hand)
{
    twin_counts();
    library_counts();
    if (by_hand) by_hand();
    if (!same(said[0], said[1]) || (by_hand && !same(said[0], said[2]))) differ("counts", label);
}

static void measure_pattern(const char *section, const char *label, const char *text, Job *by_hand)
{
    take(label, text);
    compare_counts(label, by_hand);
    say(section, label, by_hand ? 3 : 2, (Job *const[]){twin_counts, library_counts, by_hand});
}

static void compare_told(const char *label, Job *twin, Job *library, int many)
{
    turn[0] = turn[1] = 0;
    twin_empty(), library_empty();
    for (int i = 0; i < many; i++) {
        twin(), library();
        if (told[0].answer != told[1].answer || told[0].tries != told[1].tries || told[0].given != told[1].given ||
            told[0].began != told[1].began)
            differ("one row or push", label);
    }
}

static void measure_calls(const char *label, const char *text)
{
    Job *const row[] = {twin_row_by_tree, library_row_by_tree, twin_row_by_lists, library_row_by_lists};
    Job *const push[] = {twin_push_by_tree, library_push_by_tree, twin_push_by_lists, library_push_by_lists};
    char name[80];
    take(label, text);
    for (int k = 0; k < 4; k += 2) {
        compare_told(label, row[k], row[k + 1], k ? SOME : 20);
        compare_told(label, push[k], push[k + 1], k ? SOME : 40);
    }
    /* the same rows in each run */
    cycle = FEW, together = FEW;
    sprintf(name, "one row, %s", label);
    say("call", name, 4, row);
    sprintf(name, "one push, %s", label);
    say("call", name, 4, push);
    cycle = SOME, together = 1;
}

/* The first n rows of the whole file as a file, and read by both sides. */
static void take_rows(size_t n)
{
    size_t at = 0, names = 0;
    for (; whole[at] == 'N'; names++) at += 3 + whole[at + 2];
    at += n * (6 + names);
    memcpy(file, whole, at);
    memcpy(file + at, "EN", 2);
    for (int i = 0; i < 4; i++) file[at + 2 + i] = (uint8_t)(n >> 8 * i);
    length = at + 6;
    rows = n;
    twin_reads();
    library_reads();
    const Trace *t = &twin_trace;
    bool alike = t->names == trace.names && t->rows == n && trace.rows == n;
    if (!alike || memcmp(t->slots, trace.slots, 32 * trace.names) ||
        memcmp(t->times, trace.times, n * sizeof *t->times) || memcmp(t->states, trace.states, n * trace.names))
        differ("reading", "");
}

/* `EDGE NAME` of so many names from one on, joined; the edges take turns. */
static char *put_joined(char *to, const char *join, int from, int many, const char *const edge[], int edges)
{
    for (int i = 0; i < many; i++)
        to += sprintf(to, "%s%s %.32s", i ? join : "", edge[i % edges],
                      (const char *)trace.slots + 32 * ((size_t)(from + i) % trace.names));
    return to;
}

static const char *const RISE[] = {"01"}, *const FALL[] = {"10"}, *const LINKS[] = {"?1", "?-", "?0", "?-"};

static const char *square(void)
{
    static char text[4096];
    char *to = put_joined(text + sprintf(text, "( "), " | ", 0, 8, RISE, 1);
    to = put_joined(to + sprintf(to, " ) & ( "), " | ", 8, 8, FALL, 1);
    sprintf(to, " )");
    return text;
}

/* `?-` and `??` of each of 32 names: it is seen now and then, where edges that change are not */
static const char *wide(void)
{
    static char text[4096];
    char *to = put_joined(text, " & ", 0, 32, (const char *const[]){"?-"}, 1);
    put_joined(to + sprintf(to, " & "), " & ", 0, 32, (const char *const[]){"??"}, 1);
    return text;
}

/* 42 alternatives of two tests, and no test twice: more than the library makes columns for */
static const char *distinct(void)
{
    static char text[4096];
    char *to = text;
    for (int i = 0; i < 42; i++) {
        to = put_joined(to + sprintf(to, i ? " | " : ""), "", i, 1, i < 32 ? RISE : FALL, 1);
        to = put_joined(to + sprintf(to, " & "), "", i + 1, 1, i < 32 ? LINKS : LINKS + 2, 1);
    }
    return text;
}

/* six times two alternatives, one after the other, and nine steps more */
static const char *ladder(void)
{
    static char text[4096];
    char *to = text;
    for (int i = 0; i < 6; i++) {
        to = put_joined(to + sprintf(to, "( "), " | ", 2 * i, 2, LINKS, 2);
        to += sprintf(to, " ) -> ");
    }
    put_joined(to, " -> ", 12, 9, LINKS, 4);
    return text;
}

static const char *joined(const char *join, int many, const char *const edge[], int edges)
{
    static char text[4096];
    put_joined(text, join, 0, many, edge, edges);
    return text;
}

int main(int argc, char **argv)
{
    static const char FIRST[] = "01 A -> 10 B & C";
    char label[40];
    if (argc < 3) return fprintf(stderr, "usage: measure FILE RUNS\n"), 2;
    FILE *in = fopen(argv[1], "rb");
    if (!in) return perror(argv[1]), 1;
    whole_length = fread(whole, 1, sizeof whole, in);
    runs = atoi(argv[2]);
    take_rows(MAX_ROWS);
    if (length != whole_length || memcmp(file, whole, length)) differ("the file", argv[1]);
    take(FIRST, FIRST);
    compare_counts(FIRST, hand_counts_chain);
    printf("counts\t%u %u %u\n", said[0].yes, said[0].no, said[0].unknown);
    say("whole", "reading", 2, (Job *const[]){twin_reads, library_reads});
    measure_pattern("whole", FIRST, FIRST, hand_counts_chain);
    measure_pattern("whole", "01 A", "01 A", hand_counts_rise);
    measure_pattern("whole", "a chain of 16 steps", joined(" -> ", 16, LINKS, 4), NULL);
    measure_pattern("whole", "64 alternatives, 128 tests", square(), NULL);
    measure_pattern("whole", "01 (A & B | !C) -> 10 (P03 ^ P04)", "01 (A & B | !C) -> 10 (P03 ^ P04)", NULL);
    measure_pattern("whole", "64 tests in one step", wide(), NULL);
    measure_pattern("whole", "01 (A > B)", "01 (A > B)", NULL);
    measure_pattern("whole", "01 (A ? B : C)", "01 (A ? B : C)", NULL);
    measure_pattern("beyond", "84 distinct tests", distinct(), NULL);
    measure_calls(FIRST, FIRST);
    measure_calls("64 alternatives", square());
    measure_calls("64 of 15 steps", ladder());
    for (int many = 1; many <= 64; many *= 2) {
        sprintf(label, "%d", many);
        take(label, joined(" | ", many, RISE, 1));
        compare_counts(label, NULL);
        say("growing", label, 4, (Job *const[]){twin_counts, library_counts, twin_rewrites, library_rewrites});
    }
    static const size_t ROWS[] = {1000, 8000, MAX_ROWS};
    for (int i = 0; i < 3; i++) {
        sprintf(label, "%zu", ROWS[i]);
        take_rows(ROWS[i]);
        take(label, FIRST);
        compare_counts(label, NULL);
        say("rows", label, 4, (Job *const[]){twin_reads, library_reads, twin_counts, library_counts});
    }
}
