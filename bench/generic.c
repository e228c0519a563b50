/* The same generic algorithm in plain C: a reader that checks every record as document 01 says, and a matcher that
   takes any list of alternatives over any tree, with operands by recursion over the tree's bytes, and keeps three
   answers. The lists come from bench/rewriting.c before the time of matching begins, and are compared with those of
   the library. Nothing is checked while it matches. */
#include "measure.h"
#include <stdlib.h>
#include <string.h>

Trace twin_trace;
Pattern twin;


static uint32_t word(const uint8_t *p)
{
    return p[0] | (uint32_t)p[1] << 8 | (uint32_t)p[2] << 16 | (uint32_t)p[3] << 24;
}

static int is_letter(int b) { return (b >= 'a' && b <= 'z') || (b >= 'A' && b <= 'Z') || b == '_'; }

static size_t take_name(const uint8_t *f, size_t length, size_t at)
{
    size_t n = at + 2 < length ? f[at + 2] : 0;
    uint8_t *slot = twin_trace.slots + 32 * twin_trace.names;
    if (n < 1 || n > 32 || at + 3 + n > length || twin_trace.names == MAX_NAMES || !is_letter(f[at + 3])) exit(1);
    for (size_t i = 0; i < n; i++)
        if (!is_letter(f[at + 3 + i]) && (f[at + 3 + i] < '0' || f[at + 3 + i] > '9')) exit(1);
    memset(slot, 0, 32);
    memcpy(slot, f + at + 3, n);
    for (size_t i = 0; i < twin_trace.names; i++)
        if (memcmp(slot, twin_trace.slots + 32 * i, 32) == 0) exit(1);
    twin_trace.names++;
    return at + 3 + n;
}

/* `RW` with four time bytes, `RL` with eight. */
static size_t take_row(const uint8_t *f, size_t length, size_t at, size_t width)
{
    size_t codes = at + 2 + width;
    if (codes + twin_trace.names > length || twin_trace.rows == MAX_ROWS) exit(1);
    uint64_t time = word(f + at + 2);
    if (width == 8) time |= (uint64_t)word(f + at + 6) << 32;
    if (twin_trace.rows > 0 && time <= twin_trace.times[twin_trace.rows - 1]) exit(1);
    for (size_t i = 0; i < twin_trace.names; i++) {
        if (f[codes + i] > 7) exit(1);
        twin_trace.states[twin_trace.rows * twin_trace.names + i] = f[codes + i];
    }
    twin_trace.times[twin_trace.rows++] = time;
    return codes + twin_trace.names;
}

void twin_read(const uint8_t *f, size_t length)
{
    twin_trace.names = twin_trace.rows = 0;
    for (size_t at = 0;;) {
        if (at + 2 > length) exit(1);
        if (f[at] == 'N' && f[at + 1] == 'M' && twin_trace.rows == 0) at = take_name(f, length, at);
        else if (f[at] == 'R' && f[at + 1] == 'W' && twin_trace.names > 0) at = take_row(f, length, at, 4);
        else if (f[at] == 'R' && f[at + 1] == 'L' && twin_trace.names > 0) at = take_row(f, length, at, 8);
        else if (f[at] == 'E' && f[at + 1] == 'N' && twin_trace.rows > 0 && at + 6 == length &&
                 word(f + at + 2) == twin_trace.rows)
            return;
        else exit(1);
    }
}

static const uint8_t REDUCED[8] = {0, 1, 2, 1, 0, 2, 2, 2};
static const uint8_t NOT[3] = {1, 0, 2};
static const uint8_t AND[3][3] = {{0, 0, 0}, {0, 1, 2}, {0, 2, 2}};
static const uint8_t OR[3][3] = {{0, 1, 2}, {1, 1, 1}, {2, 1, 2}};

/* Table 5-9 by the states of both sides, in the order 0 1 X H L W Z U; `>=` and `<=` are `>` or `==`, `<` or `==`. */
static const char RELATION[6][8][9] = {
    {"10000000", "01000000", "00100002", "00010000", "00001000", "00000102", "00000012", "22222222"}, /* == */
    {"01111111", "10111111", "11011112", "11101111", "11110111", "11111012", "11111102", "22222222"}, /* != */
    {"00002000", "10221222", "22222222", "12201222", "20000000", "22222222", "22222222", "22222222"}, /* > */
    {"01212222", "00020000", "22222222", "02000000", "21210222", "22222222", "22222222", "22222222"}, /* < */
    {"10002000", "11221222", "22122222", "12211222", "20001000", "22222122", "22222212", "22222222"}, /* >= */
    {"11212222", "01020000", "22122222", "02010000", "21211222", "22222122", "22222212", "22222222"}, /* <= */
};

static size_t start_of(const uint8_t *tree, size_t end)
{
    for (size_t need = 1; need > 0; need--) {
        uint8_t b = tree[--end];
        need += b < 40 ? 0 : b < 60 ? 2 : b < 64 ? 3 : 1;
    }
    return end;
}

static uint8_t state_of(const uint8_t *tree, size_t end, const uint8_t *row)
{
    uint8_t b = tree[--end];
    if (b < 32) return row[b];
    if (b < 40) return b - 32;
    if (b == 147) return NOT[REDUCED[state_of(tree, end, row)]];
    size_t left = start_of(tree, end);
    uint8_t x = state_of(tree, left, row), y = state_of(tree, end, row);
    if (b == 40) return AND[REDUCED[x]][REDUCED[y]];
    if (b == 41) return OR[REDUCED[x]][REDUCED[y]];
    if (b == 60) {
        uint8_t c = REDUCED[state_of(tree, start_of(tree, left), row)];
        uint8_t last = tree[c == 1 ? left - 1 : end - 1], s = c == 1 ? x : y;
        return c == 2 ? 2 : last < 32 ? REDUCED[s] : s;
    }
    if (b >= 44) return (uint8_t)(RELATION[b - 44][x][y] - '0');
    uint8_t differ = REDUCED[x] == 2 || REDUCED[y] == 2 ? 2 : REDUCED[x] != REDUCED[y];
    return b == 42 ? differ : NOT[differ];
}

/* 0 no, 1 unknown, 2 yes */
static int ask(int half, uint8_t s)
{
    if (half == 0) return 2;
    if (half > 2) return s == half - 1 ? 2 : 0;
    return REDUCED[s] == half - 1 ? 2 : REDUCED[s] == 2 ? 1 : 0;
}

static int edge_on(int k, uint8_t x, uint8_t y)
{
    if (k >= 81) return (k == 81) == (x != y) ? 2 : 0;
    int a = ask(k / 9, x), b = ask(k % 9, y);
    return a < b ? a : b;
}

/* The best answer of the alternatives, which are tried up to the first yes; how many were tried. */
static inline __attribute__((always_inline)) int match_row(size_t names, const uint8_t *states, size_t row,
                                                           size_t *tried)
{
    int best = 0;
    size_t k = 0;
    const uint8_t *tests = twin.tests, *edges = twin.edges;
    const uint16_t *operands = twin.operands;
    for (; k < twin.alternatives && best < 2; k++) {
        int least = row < twin.steps[k] ? 0 : 2;
        for (size_t j = 0; j < twin.steps[k]; j++, tests++)
            for (size_t i = 0; i < *tests; i++, edges++, operands++) {
                if (row < twin.steps[k]) continue;
                const uint8_t *from = states + (row - twin.steps[k] + j) * names;
                uint8_t x = state_of(twin.tree, *operands, from), y = state_of(twin.tree, *operands, from + names);
                int r = edge_on(*edges, x, y);
                if (r < least) least = r;
            }
        if (least > best) best = least;
    }
    *tried = k;
    return best;
}

Counts twin_totals(size_t rows)
{
    uint32_t count[3] = {0, 0, 0};
    size_t tried;
    for (size_t row = 1; row < rows; row++) count[match_row(twin_trace.names, twin_trace.states, row, &tried)]++;
    return (Counts){count[2], count[0], count[1]};
}

Matched twin_row(size_t names, const uint64_t *times, const uint8_t *states, size_t row)
{
    static const uint8_t ANSWER[3] = {0, 2, 1};
    size_t tried;
    int best = match_row(names, states, row, &tried);
    if (best < 2) return (Matched){ANSWER[best], (uint32_t)tried, false, 0};
    return (Matched){1, (uint32_t)tried, true, times[row - twin.steps[tried - 1]]};
}

/* The rows that the queue keeps, oldest first. */
static struct { size_t kept; uint8_t states[(MAX_STEPS + 1) * MAX_NAMES]; uint64_t times[MAX_STEPS + 1]; } queue;

void twin_empty(void) { queue.kept = 0; }

/* The row is laid behind those that the queue keeps, and asked; then the queue keeps the last of them, as many as the
   longest alternative has steps. The first row of all has no event: 3. */
Matched twin_push(size_t names, uint64_t time, const uint8_t *row)
{
    size_t longest = 0, last = queue.kept;
    for (size_t k = 0; k < twin.alternatives; k++)
        if (twin.steps[k] > longest) longest = twin.steps[k];
    memcpy(queue.states + last * names, row, names);
    queue.times[last] = time;
    Matched m = last ? twin_row(names, queue.times, queue.states, last) : (Matched){3, 0, false, 0};
    size_t gone = last + 1 > longest ? last + 1 - longest : 0;
    queue.kept = last + 1 - gone;
    memmove(queue.states, queue.states + gone * names, queue.kept * names);
    memmove(queue.times, queue.times + gone, queue.kept * sizeof *queue.times);
    return m;
}
