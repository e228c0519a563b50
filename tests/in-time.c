/* How long an answer as written takes on patterns that limit 8 just allows: `dachsmond_row_answer` and
   `dachsmond_window_answer` end within a second, at row 1 and at the last of 65,535 rows, and say what
   `dachsmond_match_row` says. The slowest call is printed, with its pattern. */
#include "../include/dachsmond.h"
#include <stdio.h>
#include <stdlib.h>
#include <string.h>
#include <time.h>

enum { ROWS = 65535, FEW = 40, STEPS = 16, RANDOM = 500, LIMIT = 1 };
static const uint8_t names[32] = "A";
static uint8_t states[ROWS], tree[1024];
static uint64_t times[ROWS];
static size_t len, n;
static double most;
static char slowest[4200];
static unsigned long calls, patterns;
static int failed;

static const char *written(const char *call, size_t a, size_t b)
{
    static char said[4200];
    static uint8_t text[4096];
    dachsmond_told told = dachsmond_write_expression(names, 32, tree, len, true, text, sizeof text);
    snprintf(said, sizeof said, "%s, rows %zu to %zu: %.*s", call, a, b, (int)told.count, (const char *)text);
    return said;
}

static void fail(const char *what, size_t a, size_t b)
{
    printf("in-time: %s\n", written(what, a, b));
    failed = 1;
}

/* in seconds of the processor */
static void timed(clock_t from, const char *call, size_t a, size_t b)
{
    double took = (double)(clock() - from) / CLOCKS_PER_SEC;
    calls++;
    if (took > LIMIT) fail("over a second", a, b);
    if (took > most) most = took, strcpy(slowest, written(call, a, b));
}

/* by the rule of equal branches, which evaluates both branches and compares them; random patterns also with steady pins */
static dachsmond_rules rules;
#define ON 1, n, tree, len, states, n
#define TIMED_ON 1, n, tree, len, times, n, states, n
/* no, unknown, yes */
static int rank(uint8_t answer) { return answer == 1 ? 2 : answer == 2 ? 1 : 0; }

static int on_window(size_t a, size_t b)
{
    clock_t from = clock();
    dachsmond_answered window = dachsmond_window_answer(rules, ON, a, b);
    timed(from, "window", a, b);
    if (window.number) fail("a window is refused", a, b);
    return rank(window.answer);
}

/* at a row, and on the windows that end there: on each of up to 16 events, or on the one of 16; and on all rows */
static void at_row(size_t row, bool each)
{
    size_t from = row < STEPS ? 0 : row - STEPS;
    dachsmond_matched matched = dachsmond_match_row(rules, TIMED_ON, row);
    clock_t start = clock();
    dachsmond_answered answered = dachsmond_row_answer(rules, ON, row);
    int best = 0;
    timed(start, "row", row, row);
    if (matched.number || answered.number || matched.answer != answered.answer) fail("another answer", row, row);
    for (size_t a = from; a < (each ? row : from + 1); a++) {
        int one = on_window(a, row);
        if (best < one) best = one;
    }
    if (each ? best != rank(matched.answer) : best > rank(matched.answer)) fail("another greatest answer", row, row);
    if (row > STEPS && on_window(0, row)) fail("a window of more than 16 events", 0, row);
}

/* rows that are steady, that alternate, and that are unknown: 01 A answers no, yes at every other event, unknown */
static void on_trace(size_t rows, int trace, bool each)
{
    n = rows;
    for (size_t i = 0; i < n; i++) states[i] = trace == 2 ? 2 : trace == 1 ? i % 2 : 0;
    at_row(1, each), at_row(n - 1, each);
}

static void on_traces(bool far)
{
    patterns++;
    for (int trace = 0; trace < 3; trace++) on_trace(FEW, trace, trace == 2);
    for (int trace = 1; far && trace < 3; trace++) on_trace(ROWS, trace, false);
}

/* A shape is levels, the outermost first. A level is so many of the next with an operator between them: `>` for ->,
   `x` for <->, `a` for &>, `y` for <&>, `&`, `|`; or the next with so many conditions, `c`. The last is of 01 A. */
typedef struct {
    char operator;
    int many;
} level;
typedef level shape[5];
static const shape shapes[] = {
    {{'>', 16}},
    {{'&', 64}},
    {{'|', 64}},
    {{'|', 4}, {'>', 16}},
    {{'>', 16}, {'&', 4}},
    {{'&', 2}, {'>', 16}, {'&', 2}},
    {{'&', 4}, {'>', 16}},
    {{'&', 8}, {'>', 8}},
    {{'&', 16}, {'>', 4}},
    {{'&', 32}, {'>', 2}},
    {{'c', 3}, {'>', 16}},
    {{'>', 16}, {'c', 3}},
    {{'&', 2}, {'c', 3}, {'>', 8}},
    {{'&', 2}, {'>', 8}, {'c', 3}},
    {{'x', 7}, {'>', 2}, {'&', 4}},
    {{'x', 7}, {'&', 9}},
    {{'x', 4}, {'>', 4}, {'&', 4}},
    {{'a', 7}, {'>', 2}, {'&', 4}},
    {{'a', 7}, {'&', 9}},
    {{'a', 4}, {'>', 4}, {'&', 4}},
    {{'a', 2}, {'a', 3}, {'>', 2}, {'&', 5}},
    {{'y', 4}, {'>', 4}, {'&', 4}},
    {{'y', 4}, {'c', 1}, {'>', 4}, {'&', 3}},
    {{'y', 2}, {'x', 3}, {'>', 2}, {'&', 5}},
    {{'y', 2}, {'a', 3}, {'>', 2}, {'&', 5}},
    {{'x', 2}, {'y', 2}, {'>', 4}, {'&', 4}},
    {{'&', 2}, {'a', 4}, {'>', 4}, {'&', 2}},
    {{'&', 2}, {'y', 2}, {'>', 8}, {'&', 2}},
    {{'>', 3}, {'|', 4}, {'>', 5}},
    {{'>', 6}, {'|', 2}, {'>', 2}},
    {{'&', 6}, {'|', 2}, {'>', 7}},
    {{'|', 8}, {'a', 4}, {'>', 2}},
};
enum { SHAPES = sizeof shapes / sizeof *shapes };

static uint8_t byte_of(char operator)
{
    static const char OPERATORS[] = ">xay&|c";
    return (uint8_t)(50 + (strchr(OPERATORS, operator) - OPERATORS));
}

static void put(int times, uint8_t b)
{
    for (; times > 0; times--) tree[len++] = b;
}

static void put_level(const level *l, int way, int step);

/* so many operands of a level, nested in halves */
static void put_halves(const level *l, int way, int step, int many)
{
    if (many == 1) {
        put_level(l + 1, way + step, step);
        return;
    }
    put_halves(l, way, step, many / 2);
    put_halves(l, way, step, many - many / 2);
    put(1, byte_of(l->operator));
}

/* A level's way is 0 nested on the left, 1 on the right, as far as 32 brackets reach, 2 in halves; the next level's is
   a step further. */
static void put_level(const level *l, int way, int step)
{
    int right = way % 3 == 1 ? (l->many < 28 ? l->many - 1 : 28) : 0;
    if (l->many == 0) put(1, 0), put(1, 64 + 11); /* 01 A */
    if (l->operator == 'c') {
        put_level(l + 1, way + step, step);
        for (int i = 0; i < l->many; i++) put(1, 0), put(1, 56);
    } else if (way % 3 == 2 && l->many) {
        put_halves(l, way, step, l->many);
    } else {
        for (int i = 0; i < l->many; i++) {
            put_level(l + 1, way + step, step);
            if (i > right) put(1, byte_of(l->operator));
        }
        put(right, byte_of(l->operator));
    }
}

static void put_random(int deep)
{
    static const char SOME[] = ">>>xay&&&||cc";
    char operator = SOME[rand() % (int)(sizeof SOME - 1)];
    if (deep == 0 || rand() % 5 == 0) {
        put(1, 0), put(1, (uint8_t)(64 + (rand() % 4 ? 11 : rand() % 83)));
    } else if (operator == 'c') {
        put_random(deep - 1), put(1, 0), put(1, 56);
    } else {
        put_random(deep - 1), put_random(deep - 1), put(1, byte_of(operator));
    }
}

int main(void)
{
    rules = dachsmond_old_rules();
    rules.equal_branches = true;
    for (size_t i = 0; i < ROWS; i++) times[i] = i;
    for (size_t i = 0; i < SHAPES; i++)
        for (int ways = 0; ways < (shapes[i][1].many ? 9 : 3); ways++)
            len = 0, put_level(shapes[i], ways % 3, ways / 3), on_traces(true);
    srand(1);
    for (int i = 0; i < RANDOM; i++) {
        rules.steady_pins = i % 2;
        len = 0, n = FEW, put_random(2 + i % 5);
        if (len <= 256 && !dachsmond_match_row(rules, TIMED_ON, 1).number) on_traces(false);
    }
    printf("%lu calls on %lu patterns; the slowest took %.3f s: %s\n", calls, patterns, most, slowest);
    return failed;
}
