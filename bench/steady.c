/* PROGRAM FILE RUNS: what steady pins cost. A pattern with the rule on, and the same with its added tests written out
   and the rule off, on the same rows. The answers are compared, then the least time over RUNS runs of each is told:
   totals of all rows, the answers as written of the first 256 rows, and these rows through the queue, in nanoseconds.
   All are asked from one place in memory, since the place by itself makes a difference. What is written out is asked
   twice in each run, so that the ratio of it to itself tells how far the machine measures the same work alike. With 0
   RUNS each is asked once, the rule on first, and no time is told. */
#include "../include/dachsmond.h"
#include "measure.h"
#include <stdio.h>
#include <stdlib.h>
#include <string.h>
#include <time.h>

enum { WAYS = 3, SIDES = 3, FEW = 256 };
static const char *const WAY[WAYS] = {"totals", "as written", "queue"};

static uint8_t file[4 << 20], names[32 * MAX_NAMES], states[MAX_ROWS * MAX_NAMES];
static uint64_t times[MAX_ROWS];
static dachsmond_trace trace;

typedef struct { dachsmond_rules rules; dachsmond_expression e; } Asked;

static long now(void)
{
    struct timespec t;
    clock_gettime(CLOCK_MONOTONIC, &t);
    return t.tv_sec * 1000000000L + t.tv_nsec;
}

static Asked read_text(bool steady, const char *text)
{
    Asked a = {.rules = dachsmond_old_rules()};
    a.rules.steady_pins = steady;
    a.e = dachsmond_read_expression(a.rules, names, 32 * trace.names, (const uint8_t *)text, strlen(text), true);
    if (!a.e.number) return a;
    fprintf(stderr, "%s: refused with %u at %zu\n", text, a.e.number, a.e.place);
    exit(1);
}

#define FIRST(n) trace.names, (n), a->e.tree, a->e.len, states, (n) * trace.names

/* A sum over what one way answers. A function of its own, so that what it takes can be counted. */
__attribute__((noinline, noclone)) static uint64_t ask(const Asked *a, int way)
{
    uint64_t sum = 0;
    if (way == 0) {
        dachsmond_counted t = dachsmond_totals(a->rules, FIRST(trace.rows));
        return t.number ? 0 : ((uint64_t)t.yes << 40) + ((uint64_t)t.no << 20) + t.unknown + 1;
    }
    if (way == 1) {
        for (uint32_t i = 0; i < FEW; i++) sum = 31 * sum + dachsmond_row_answer(a->rules, FIRST(FEW), i).answer;
        return sum;
    }
    dachsmond_queue q = dachsmond_empty_queue();
    for (size_t i = 0; i < FEW; i++) {
        dachsmond_pushed p = dachsmond_push(a->rules, trace.names, a->e.tree, a->e.len, q, times[i],
                                            states + i * trace.names, trace.names);
        q = p.queue;
        sum = 31 * sum + p.answer;
    }
    return sum;
}

static void compare(const char *label, const char *pattern, const char *filled, int runs)
{
    static Asked here;
    Asked asked[SIDES] = {read_text(true, pattern), read_text(false, filled), read_text(false, filled)};
    for (int way = 0; way < WAYS; way++) {
        long least[SIDES] = {0, 0, 0};
        here = asked[0];
        uint64_t on = ask(&here, way);
        here = asked[1];
        if (on != ask(&here, way)) {
            fprintf(stderr, "%s: other answers, %s\n", label, WAY[way]);
            exit(1);
        }
        for (int i = 0; i < runs * SIDES; i++) {
            int side = (i + i / SIDES) % SIDES;
            here = asked[side];
            long a = now();
            ask(&here, way);
            long b = now();
            if (!least[side] || b - a < least[side]) least[side] = b - a;
        }
        printf("%-28s %-10s", label, WAY[way]);
        if (runs)
            printf(" %12ld %12ld %6.3f %6.3f", least[0], least[1], (double)least[0] / (double)least[1],
                   (double)least[2] / (double)least[1]);
        printf("\n");
    }
}

/* `01 n0 -> 01 n1 -> ..`, and the same filled. */
static void ladder(int steps, char *pattern, char *filled)
{
    for (int i = 0; i < steps; i++) {
        pattern += sprintf(pattern, "%s01 %.32s", i ? " -> " : "", (char *)names + 32 * i);
        filled += sprintf(filled, "%s01 %.32s", i ? " -> " : "", (char *)names + 32 * i);
        for (int k = 0; k < steps; k++)
            if (k != i) filled += sprintf(filled, " & ?- %.32s", (char *)names + 32 * k);
    }
}

int main(int argc, char **argv)
{
    static char pattern[4096], filled[4096], label[40];
    if (argc < 3) return fprintf(stderr, "usage: PROGRAM FILE RUNS\n"), 2;
    FILE *in = fopen(argv[1], "rb");
    if (!in) return perror(argv[1]), 1;
    size_t length = fread(file, 1, sizeof file, in);
    trace = dachsmond_read_trace(file, length, names, sizeof names, times, MAX_ROWS, states, sizeof states);
    if (trace.number) return fprintf(stderr, "read_trace: refused with %u\n", trace.number), 1;
    int runs = atoi(argv[2]);
    printf("%-28s %-10s %12s %12s %6s%s\n", "pattern", "asked by", "rule on", "written out", "ratio",
           runs ? " itself" : "");
    compare("01 A -> 10 B", "01 A -> 10 B", "01 A & ?- B -> 10 B & ?- A", runs);
    compare("( 01 A -> 10 B ) & C", "( 01 A -> 10 B ) & C", "( 01 A & ?- B -> 10 B & ?- A ) & C", runs);
    compare("01 A -> 10 B | 01 C", "01 A -> 10 B | 01 C", "01 A & ?- B -> 10 B & ?- A | 01 C", runs);
    for (int steps = 4; steps <= 8; steps += 4) {
        ladder(steps, pattern, filled);
        sprintf(label, "01 on each of %d names", steps);
        compare(label, pattern, filled, runs);
    }
}
