/* dumps RUNS: the library's reader and writer of value change dumps beside the C twin's reader and beside the library's
   own reader of trace files. Both readers are compared on some thousand dumps, most of them broken in some place; then
   both are timed. A line has what it is, the twin's nanoseconds, the library's, and how many bytes. Without a run it
   only compares, and says how often each number was told. */
#include "../include/dachsmond.h"
#include "dumps.h"
#include <inttypes.h>
#include <stdio.h>
#include <stdlib.h>
#include <string.h>
#include <time.h>

static Trace ours, theirs;
static uint8_t text[8000000], file[2753596];

static uint64_t seed = 88172645463325252u;

static unsigned below(unsigned n)
{
    seed ^= seed << 13, seed ^= seed >> 7, seed ^= seed << 17;
    return (unsigned)(seed >> 33) % n;
}

static Dumped library_dump(const uint8_t *dump, size_t length, const char *path, Trace *t)
{
    dachsmond_dump r = dachsmond_read_vcd(dump, length, (const uint8_t *)path, strlen(path), t->slots,
                                          sizeof t->slots, t->times, MAX_ROWS, t->states, sizeof t->states);
    t->names = r.names, t->rows = r.rows;
    return (Dumped){r.number, r.place, r.names, r.rows, r.passed};
}

static void differ(const char *path, size_t length, Dumped a, Dumped b)
{
    const char *side = "%s: %u at %zu, %zu names, %zu rows, %zu passed over\n";
    fprintf(stderr, "the dump below, scope '%s'\n", path);
    fprintf(stderr, side, "twin", a.number, a.place, a.names, a.rows, a.passed);
    fprintf(stderr, side, "library", b.number, b.place, b.names, b.rows, b.passed);
    fwrite(text, 1, length, stderr);
    exit(1);
}

static int told[256];

static void compare(const char *path, size_t length)
{
    Dumped a = twin_dump(text, length, path, &theirs), b = library_dump(text, length, path, &ours);
    told[a.number]++;
    bool same = a.number == b.number && a.place == b.place && a.names == b.names && a.rows == b.rows
                && a.passed == b.passed;
    if (same && a.number == 0)
        same = memcmp(ours.slots, theirs.slots, 32 * a.names) == 0 && memcmp(ours.times, theirs.times, 8 * a.rows) == 0
               && memcmp(ours.states, theirs.states, a.rows * a.names) == 0;
    if (!same) differ(path, length, a, b);
}

static size_t put(size_t at, const char *word, char gap)
{
    size_t n = strlen(word);
    memcpy(text + at, word, n);
    text[at + n] = (uint8_t)gap;
    return at + n + 1;
}

/* Words of a dump, so many that most pairs stand beside each other somewhere. */
static const char *const words[] = {
    "$scope", "module", "task", "tb", "u1", "u_1", "a.b", "$end", "$upscope", "$end", "$var", "wire", "reg", "real",
    "logic", "1", "01", "8", "x1", "!", "\"", "!!", "A", "B", "A", "9", "esc\\", "[0:0]", "$enddefinitions", "$end",
    "$comment", "hello", "$date", "$timescale", "$dumpvars", "$dumpoff", "$end", "#0", "#5", "#5", "#7", "#3", "#x",
    "#18446744073709551615", "#18446744073709551616", "0!", "1!", "x\"", "Z!!", "z\"", "b01", "bU", "r1.5", "!", "1?",
    "a_name_that_is_rather_long_0123456", "gen[0]", "1 !", "$var wire 1 ! A $end", "$var reg 1 \" B $end",
    "$scope module tb $end", "$scope module u1 $end", "$upscope $end", "$enddefinitions $end", "$dumpvars 0! 1\" $end",
    "$var reg 8 # v [7:0] $end", "$var real 64 $ r $end", "b0101 #", "r0.5 $", "#10 1!", "#20 0! x\""};

/* A dump of random words: a good one in which some words are taken out, put in or changed. */
static size_t made(void)
{
    static const char *const good[] = {
        "$date", "today", "$end", "$scope", "module", "tb", "$end", "$var", "reg", "8", "#", "v", "[7:0]", "$end",
        "$scope", "module", "u1", "$end", "$var", "wire", "1", "!", "A", "$end", "$var", "wire", "1", "\"", "B",
        "$end", "$upscope", "$end", "$upscope", "$end", "$enddefinitions", "$end", "#0", "$dumpvars", "0!", "x\"",
        "b0", "#", "$end", "#5", "1!", "#5", "0!", "#9", "z\"", "$comment", "c", "$end"};
    size_t at = 0, n = sizeof good / sizeof *good, some = sizeof words / sizeof *words;
    unsigned odds = 4 + below(60), skip = below(3);
    for (size_t i = 0; i < n; i++) {
        char gap = " \n\t\r"[below(40) < 37 ? 0 : below(4)];
        bool vector = (7 <= i && i < 14) || i == 40 || i == 41;
        if (vector && skip) continue;
        if (below(odds) == 0) {
            if (below(2)) at = put(at, words[below((unsigned)some)], gap);
            if (below(2)) continue;
        }
        at = put(at, good[i], gap);
    }
    return at - below(2);
}

static const char *const paths[] = {"", "", "tb", "tb.u1", "tb.u2", "u1", ".", "tb."};

static void compare_all(int many)
{
    for (int i = 0; i < many; i++) compare(paths[below(8)], made());
}

static uint64_t now(void)
{
    struct timespec t;
    clock_gettime(CLOCK_MONOTONIC, &t);
    return (uint64_t)t.tv_sec * 1000000000u + (uint64_t)t.tv_nsec;
}

static void show(const char *what, uint64_t twin, uint64_t library, size_t bytes)
{
    printf("%s\t%" PRIu64 "\t%" PRIu64 "\t%zu\n", what, twin, library, bytes);
}

static void time_readers(const char *what, const char *path, size_t length, int runs)
{
    uint64_t least[2] = {UINT64_MAX, UINT64_MAX};
    for (int i = 0; i < runs; i++) {
        uint64_t a = now();
        twin_dump(text, length, path, &theirs);
        uint64_t b = now();
        library_dump(text, length, path, &ours);
        uint64_t c = now();
        if (b - a < least[0]) least[0] = b - a;
        if (c - b < least[1]) least[1] = c - b;
    }
    show(what, least[0], least[1], length);
}

/* 32 pins, of which some change at each of 65,535 rows */
static void fill(Trace *t)
{
    t->names = MAX_NAMES, t->rows = MAX_ROWS;
    memset(t->slots, 0, sizeof t->slots);
    for (int i = 0; i < MAX_NAMES; i++) sprintf((char *)t->slots + 32 * i, "P%02d", i);
    for (int i = 0; i < MAX_ROWS; i++) {
        t->times[i] = (uint64_t)i * 10;
        for (int j = 0; j < MAX_NAMES; j++)
            t->states[i * MAX_NAMES + j] = i && below(8) ? t->states[(i - 1) * MAX_NAMES + j] : "\0\1\2\6"[below(4)];
    }
}

static void time_writer(const Trace *t, int runs)
{
    uint64_t least = UINT64_MAX;
    size_t length = 0;
    for (int i = 0; i < runs; i++) {
        uint64_t a = now();
        length = dachsmond_write_vcd(t->slots, 32 * t->names, t->times, t->rows, t->states, t->rows * t->names,
                                     t->rows, text, sizeof text).count;
        uint64_t b = now();
        if (b - a < least) least = b - a;
    }
    show("dump-written", 0, least, length);
}

static void time_traces(Trace *t, int runs)
{
    dachsmond_told w = dachsmond_write_trace(t->slots, 32 * t->names, t->times, t->rows, t->states, t->rows * t->names,
                                             t->rows, file, sizeof file);
    uint64_t least = UINT64_MAX;
    for (int i = 0; i < runs; i++) {
        uint64_t a = now();
        dachsmond_read_trace(file, w.count, ours.slots, sizeof ours.slots, ours.times, MAX_ROWS, ours.states,
                             sizeof ours.states);
        uint64_t b = now();
        if (b - a < least) least = b - a;
    }
    show("trace-file", 0, least, w.count);
}

/* How often each number was told; 1 where one is missing. 11 and 9 are left out: they ask for more pins or rows, or for
   less room. */
static int say_told(void)
{
    static const int numbers[] = {0, 13, 23, 24, 25, 26};
    int missing = 0, all = 0;
    for (int i = 0; i < 256; i++) all += told[i];
    printf("%d dumps agree:", all);
    for (size_t i = 0; i < sizeof numbers / sizeof *numbers; i++) {
        printf(" %dx%d", numbers[i], told[numbers[i]]);
        missing |= !told[numbers[i]];
    }
    printf("%s\n", missing ? ", and one of these numbers is missing" : "");
    return missing;
}

int main(int count, char **arguments)
{
    int runs = count > 1 ? atoi(arguments[1]) : 10;
    compare_all(20000);
    static Trace t;
    fill(&t);
    dachsmond_told w = dachsmond_write_vcd(t.slots, 32 * t.names, t.times, t.rows, t.states, t.rows * t.names, t.rows,
                                           text, sizeof text);
    if (w.number) return fprintf(stderr, "write_vcd: refused with %u at %zu\n", w.number, w.place), 1;
    compare("", w.count);
    if (memcmp(ours.states, t.states, sizeof t.states) != 0) return fputs("the trace does not come back\n", stderr), 1;
    if (runs == 0) return say_told();
    time_readers("dump", "", w.count, runs);
    time_writer(&t, runs);
    time_traces(&t, runs);
}
