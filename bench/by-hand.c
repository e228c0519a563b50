/* Loops for one pattern each and this one file, checking nothing: names are skipped, rows are read where they lie. */
#include "measure.h"

typedef struct { const uint8_t *first; size_t rows, size; } Rows;

static Rows rows_of(const uint8_t *file, size_t length)
{
    size_t names = 0, at = 0;
    for (; file[at] == 'N'; names++) at += 3 + file[at + 2];
    return (Rows){file + at, (length - at - 6) / (6 + names), 6 + names};
}

/* of 0 1 X H L W Z U: 0 no, 1 unknown, 2 yes */
static const uint8_t IS_0[8] = {2, 0, 1, 0, 2, 1, 1, 1}, IS_1[8] = {0, 2, 1, 2, 0, 1, 1, 1};

static int lesser(int a, int b) { return a < b ? a : b; }

/* 01 A -> 10 B & C */
Counts by_hand_chain(const uint8_t *file, size_t length)
{
    Rows f = rows_of(file, length);
    uint32_t count[3] = {1, 0, 0};
    for (size_t i = 2; i < f.rows; i++) {
        const uint8_t *p = f.first + (i - 2) * f.size + 6, *q = p + f.size, *r = q + f.size;
        int rise = lesser(IS_0[p[0]], IS_1[q[0]]);
        int fall = lesser(IS_1[q[1]], IS_0[r[1]]);
        int held = lesser(IS_1[q[2]], IS_1[r[2]]);
        count[lesser(rise, lesser(fall, held))]++;
    }
    return (Counts){count[2], count[0], count[1]};
}

/* 01 A */
Counts by_hand_rise(const uint8_t *file, size_t length)
{
    Rows f = rows_of(file, length);
    uint32_t count[3] = {0, 0, 0};
    for (size_t i = 1; i < f.rows; i++) {
        const uint8_t *p = f.first + (i - 1) * f.size + 6, *q = p + f.size;
        count[lesser(IS_0[p[0]], IS_1[q[0]])]++;
    }
    return (Counts){count[2], count[0], count[1]};
}
