/* What the programs of the benchmark share: a trace, a pattern, and what each side does with them. bench/measure.c
   compares the sides and times them; bench/table.c is the C twin of `dachsmond table`. */
#ifndef MEASURE_H
#define MEASURE_H
#include <stdbool.h>
#include <stddef.h>
#include <stdint.h>

enum { MAX_ROWS = 65535, MAX_NAMES = 32, MAX_NODES = 256, MAX_ALTERNATIVES = 64, MAX_STEPS = 16, MAX_TESTS = 64 };

typedef struct { uint32_t yes, no, unknown; } Counts;

typedef struct {
    size_t names, rows;
    uint8_t slots[32 * MAX_NAMES];
    _Alignas(64) uint8_t states[MAX_ROWS * MAX_NAMES];
    uint64_t times[MAX_ROWS];
} Trace;

/* A tree, and its alternatives in four lists: the steps of each alternative, the tests of each step, and for each test
   its edge and where its operand ends in the tree. */
typedef struct {
    size_t length, alternatives, all_steps, all_tests;
    uint8_t tree[MAX_NODES], steps[MAX_ALTERNATIVES], tests[MAX_ALTERNATIVES * MAX_STEPS];
    uint8_t edges[MAX_ALTERNATIVES * MAX_TESTS];
    uint16_t operands[MAX_ALTERNATIVES * MAX_TESTS];
} Pattern;

/* The answer at a row, 0 no, 1 yes, 2 unknown; how many alternatives were tried; where the match began. */
typedef struct { uint8_t answer; uint32_t tries; bool given; uint64_t began; } Matched;

/* generic.c: the trace that it read, and the pattern at hand, whose lists it goes by; the row that is asked is the
   last of the rows; the queue is its own */
extern Trace twin_trace;
extern Pattern twin;
void twin_read(const uint8_t *file, size_t length);
Counts twin_totals(size_t rows);
Matched twin_row(size_t names, const uint64_t *times, const uint8_t *states, size_t row);
void twin_empty(void);
Matched twin_push(size_t names, uint64_t time, const uint8_t *row);

/* rewriting.c: from the tree of a pattern to its lists; whether the tree is accepted */
bool twin_rewrite(Pattern *p, size_t names);

/* library.c: a call that is refused ends the program */
void library_read(const uint8_t *file, size_t length, Trace *t);
void library_tree(const char *text, const Trace *t, Pattern *p);
void library_rewrite(Pattern *p, size_t names);
Counts library_totals(const Pattern *p, const Trace *t, size_t rows);
Matched library_row(const Pattern *p, bool lists, size_t names, const uint64_t *times, const uint8_t *states,
                    size_t row);
void library_empty(void);
Matched library_push(const Pattern *p, bool lists, size_t names, uint64_t time, const uint8_t *row);

/* by-hand.c: on the bytes of a file */
Counts by_hand_chain(const uint8_t *file, size_t length);
Counts by_hand_rise(const uint8_t *file, size_t length);
#endif
