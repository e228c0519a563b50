/* Dachsmond for C. Each function's meaning is document 01's; `crates/dachsmond` has the contracts, which are proved.
   Link with libdachsmond.a: `rt lib` in crates/dachsmond_c makes it as out/libdachsmond_c.a (x86-64).

   Lent memory is a pointer and a length in entries; a pointer is not null, also where the length is 0, and lists that
   a call writes to overlap no other. A number of 0 is done. Another is document 01's number of the refusal, with its
   place; then all lent memory is as it was and the other fields are 0, but a queue, which is the one handed in.

   Names are slots of 32 bytes, filled with zeros behind the name. States are codes 0 to 7 for 0 1 X H L W Z U, row by
   row. A tree is the bytes of an expression, one a node, operands before their operator. A row number is a uint32_t, to
   which C cuts a larger one without a word; n, how many rows there are, is a size_t. A time is a uint64_t in every list:
   until 1.0 times were 32 bits wide, so a program that lends lists of times has to be changed and compiled again.

   A call takes less than 256 KB of stack. The proofs say nothing of that: tests/stack measures each call on the inputs
   that recurse deepest (145,888 bytes at most, for a listing, which holds an answer for each row) and reckons from the
   object code how much any input can take (184,896 bytes at most). Nothing is allocated and nothing is kept. */
#ifndef DACHSMOND_H
#define DACHSMOND_H
#include <stdbool.h>
#include <stddef.h>
#include <stdint.h>

/* The version of this header. dachsmond_version() tells that of the library: 65536 * major + 256 * minor. */
#define DACHSMOND_VERSION_MAJOR 4
#define DACHSMOND_VERSION_MINOR 1
#define DACHSMOND_VERSION (65536 * DACHSMOND_VERSION_MAJOR + 256 * DACHSMOND_VERSION_MINOR)

#ifdef __cplusplus
extern "C" {
#endif

/* The rules, which every call that reads, rewrites or evaluates takes; hold them fixed through a trace and its
   corrections, and hand a tree to the calls under the rules by which it was read.
   equal_branches: `c ? a : b` with c unknown has the value of its branches where both have the same; else, and always
   where it is false, it is X.
   steady_pins: a vector expression is read with its steady pins (document 02, [2]). In each longest run of `->` whose
   operands are edges or edges joined by `&`, if each of these steps has an edge that changes, a plain name with an edge
   somewhere in the run gets `?-` at the steps with no edge on it alone. Limit 8, its alternatives, refusal 10 and every
   answer are those of the expression so filled. The tree is that of the text, which dachsmond_write_expression writes as
   it was read. Where it is false, the expression is read as it is written. Until 2.0 there was no such field, and
   dachsmond_read_expression, dachsmond_rewrite and dachsmond_contradictions took no rules: a program has to be changed
   and compiled again. */
typedef struct {
    bool equal_branches;
    bool steady_pins;
} dachsmond_rules;

/* What came of a call: done, with a count of what it made, or refused. */
typedef struct {
    uint8_t number;
    size_t place;
    size_t count;
} dachsmond_told;

/* The first `len` entries of `tree`, with zeros behind them, or refused. `extent` is how many bytes are refused from the
   place on: for 5, 6 and 7 the token's, for 2 those up to the next blank or the text's end. It is 0 where the place is the
   text's end, for every other number, and where nothing is refused. */
typedef struct {
    uint8_t number;
    size_t place;
    size_t extent;
    size_t len;
    uint8_t tree[256];
} dachsmond_expression;

/* How many names and rows were read, or refused. */
typedef struct {
    uint8_t number;
    size_t place;
    size_t names;
    size_t rows;
} dachsmond_trace;

/* The changed variables of a row, bit i for name i, and how many they are, or refused. */
typedef struct {
    uint8_t number;
    size_t place;
    uint32_t mask;
    uint32_t many;
} dachsmond_changed;

/* The answer at a row, 0 no, 1 yes, 2 unknown, 3 no event, or refused. */
typedef struct {
    uint8_t number;
    size_t place;
    uint8_t answer;
} dachsmond_answered;

/* The same, the number of alternatives tried, and where the match began (document 02, [12]): the time of the first row
   of the window of the first alternative in order that answers yes. `given` is 1 where that time is given, which is
   with yes alone; with every other answer `given` and `began` are 0. Until 3.0 no call gave that time: a program that
   matches or pushes has to be changed and compiled again. */
typedef struct {
    uint8_t number;
    size_t place;
    uint8_t answer;
    uint32_t tries;
    uint8_t given;
    uint64_t began;
} dachsmond_matched;

/* How many rows answer yes, no and unknown, or refused. */
typedef struct {
    uint8_t number;
    size_t place;
    uint32_t yes;
    uint32_t no;
    uint32_t unknown;
} dachsmond_counted;

/* How many rows a queue keeps, their states and their times, oldest first, with zeros behind them. */
typedef struct {
    uint32_t kept;
    uint8_t states[512];
    uint64_t times[16];
} dachsmond_queue;

/* The answer of the row pushed, the number tried and where its match began, or refused; and the queue then, refused
   the one handed in. */
typedef struct {
    uint8_t number;
    size_t place;
    uint8_t answer;
    uint32_t tries;
    uint8_t given;
    uint64_t began;
    dachsmond_queue queue;
} dachsmond_pushed;

/* How many names a list of names holds: 18, 12. */
dachsmond_told dachsmond_check_names(const uint8_t *names, size_t names_len);

/* The expression that a text is, as a tree over a list of names, for the sort asked for: 18, 12, 1 to 8. With steady pins
   8 counts the tests that they add. */
dachsmond_expression dachsmond_read_expression(dachsmond_rules rules, const uint8_t *names, size_t names_len,
                                               const uint8_t *text, size_t text_len, bool vector);

/* The text of a tree, with only needed brackets, at the front of `out`; its length: 18, 12, 10, 1, 9. It takes no rules:
   what was read is written, without steady pins, and 10 is by document 01's rules. */
dachsmond_told dachsmond_write_expression(const uint8_t *names, size_t names_len, const uint8_t *tree, size_t tree_len,
                                          bool vector, uint8_t *out, size_t out_len);

/* The version of the library, as DACHSMOND_VERSION is that of the header. */
uint32_t dachsmond_version(void);

/* Document 01's rules, those of every table made before version 2.0: start from them, and set what is to be otherwise. */
dachsmond_rules dachsmond_old_rules(void);

/* A trace file into three lists, names in slots, times, and states: 11 to 17, then 9 for the first short list. */
dachsmond_trace dachsmond_read_trace(const uint8_t *file, size_t file_len, uint8_t *names, size_t names_len,
                                     uint64_t *times, size_t times_len, uint8_t *states, size_t states_len);

/* The file of a trace of n rows at the front of `out`; its length: 18, 12, 13 and 15 row by row, 9. */
dachsmond_told dachsmond_write_trace(const uint8_t *names, size_t names_len, const uint64_t *times, size_t times_len,
                                     const uint8_t *states, size_t states_len, size_t n, uint8_t *out, size_t out_len);

/* The changes of a row of a trace of n rows and so many names; row 0 has none: 18, 15, 19. */
dachsmond_changed dachsmond_changes_at(size_t names, size_t n, const uint8_t *states, size_t states_len, uint32_t row);

/* The state of a boolean tree at a row, as the count told: 18, 10, 15, 19. */
dachsmond_told dachsmond_row_state(dachsmond_rules rules, size_t names, size_t n, const uint8_t *tree, size_t tree_len,
                                   const uint8_t *states, size_t states_len, uint32_t row);

/* The value of a boolean tree at a row, as the count told: 18, 10, 15, 19. */
dachsmond_told dachsmond_row_value(dachsmond_rules rules, size_t names, size_t n, const uint8_t *tree, size_t tree_len,
                                   const uint8_t *states, size_t states_len, uint32_t row);

/* The values of a boolean tree at all n rows into a list of exactly n; how many: 18, 10, 15. */
dachsmond_told dachsmond_values(dachsmond_rules rules, size_t names, size_t n, const uint8_t *tree, size_t tree_len,
                                const uint8_t *states, size_t states_len, uint8_t *out, size_t out_len);

/* The answer of a vector tree at a row, the greatest over all windows that end there: 18, 10, 15, 19. It is worked out
   as the tree is written, each part of it once on each window of at most 16 events, so its cost does not grow with the
   row; the states are all looked through once for 15. */
dachsmond_answered dachsmond_row_answer(dachsmond_rules rules, size_t names, size_t n, const uint8_t *tree,
                                        size_t tree_len, const uint8_t *states, size_t states_len, uint32_t row);

/* The answer of a vector tree on the window of rows a to b; a window without an event answers no, and so does one of
   more events than the tree's longest alternative has steps: 18, 10, 15, 19. It costs no more than a row's answer. */
dachsmond_answered dachsmond_window_answer(dachsmond_rules rules, size_t names, size_t n, const uint8_t *tree,
                                           size_t tree_len, const uint8_t *states, size_t states_len, uint32_t a,
                                           uint32_t b);

/* The answer of a vector tree at a row by its alternatives, how many of them were tried, and where the match began.
   The times of all n rows, exactly n of them, are handed in: 18, 10, 15, 13 at the first row whose time is not above
   that of the row before, 19. */
dachsmond_matched dachsmond_match_row(dachsmond_rules rules, size_t names, size_t n, const uint8_t *tree,
                                      size_t tree_len, const uint64_t *times, size_t times_len, const uint8_t *states,
                                      size_t states_len, uint32_t row);

/* The same of all n rows into four lists of exactly n: the answers, the numbers tried, a flag for each row, 1 where a
   time is given and else 0, and these times, 0 where none is; how many: 18, 10, 15, 13. */
dachsmond_told dachsmond_match_all(dachsmond_rules rules, size_t names, size_t n, const uint8_t *tree, size_t tree_len,
                                   const uint64_t *times, size_t times_len, const uint8_t *states, size_t states_len,
                                   uint8_t *answers, size_t answers_len, uint32_t *tried, size_t tried_len,
                                   uint8_t *given, size_t given_len, uint64_t *began, size_t began_len);

/* How many of the n rows answer yes, no and unknown, together n - 1: 18, 10, 15. */
dachsmond_counted dachsmond_totals(dachsmond_rules rules, size_t names, size_t n, const uint8_t *tree, size_t tree_len,
                                   const uint8_t *states, size_t states_len);

/* The alternatives of a vector tree into four lists: steps of each alternative, tests of each step, and for each test
   its edge's number and where its operand ends in the tree; how many alternatives: 18, 10, 9. With steady pins their
   tests `?-` are among these, each with a name in the tree as its operand. */
dachsmond_told dachsmond_rewrite(dachsmond_rules rules, size_t names, const uint8_t *tree, size_t tree_len,
                                 uint8_t *steps, size_t steps_len, uint8_t *tests, size_t tests_len, uint8_t *edges,
                                 size_t edges_len, uint16_t *operands, size_t operands_len);

/* A flag for each alternative of a vector tree, 1 where it is contradictory, else 0; how many: 18, 10, 9. */
dachsmond_told dachsmond_contradictions(dachsmond_rules rules, size_t names, const uint8_t *tree, size_t tree_len,
                                        uint8_t *flags, size_t flags_len);

/* The new states become the row, and the answers from it on that can depend on it are written anew: 18, 10, 15, 19. */
dachsmond_told dachsmond_correct(dachsmond_rules rules, size_t names, size_t n, const uint8_t *tree, size_t tree_len,
                                 uint8_t *states, size_t states_len, uint8_t *answers, size_t answers_len,
                                 uint32_t row, const uint8_t *new_states, size_t new_len);

/* A queue before the first push. */
dachsmond_queue dachsmond_empty_queue(void);

/* One row more, with its time: its answer, how many alternatives were tried, where its match began, and the queue with
   the row in it: 18, 10 also for times of the queue that do not rise, 15, and 13 at 0 for a time that is not above
   that of the last row kept. */
dachsmond_pushed dachsmond_push(dachsmond_rules rules, size_t names, const uint8_t *tree, size_t tree_len,
                                dachsmond_queue queue, uint64_t time, const uint8_t *row, size_t row_len);

/* Alternatives handed in: lists as `dachsmond_rewrite` writes them, of exactly as many entries as they say, over the tree
   in which their operands end. Lists that are not accepted are refused with 10. What is asked is what is handed in: these
   calls add no steady pins. */

/* How many alternatives such lists hold, where they are accepted: 18, 10. */
dachsmond_told dachsmond_listed_fits(size_t names, const uint8_t *tree, size_t tree_len, const uint8_t *steps,
                                     size_t steps_len, const uint8_t *tests, size_t tests_len, const uint8_t *edges,
                                     size_t edges_len, const uint16_t *operands, size_t operands_len);

/* Their answer at a row, how many of them were tried, and where the match began: 18, 10, 15, 13, 19. */
dachsmond_matched dachsmond_listed_match_row(dachsmond_rules rules, size_t names, size_t n, const uint8_t *tree,
                                             size_t tree_len, const uint8_t *steps, size_t steps_len,
                                             const uint8_t *tests, size_t tests_len, const uint8_t *edges,
                                             size_t edges_len, const uint16_t *operands, size_t operands_len,
                                             const uint64_t *times, size_t times_len, const uint8_t *states,
                                             size_t states_len, uint32_t row);

/* The same of all n rows into four lists of exactly n, as dachsmond_match_all has them; how many: 18, 10, 15, 13. */
dachsmond_told dachsmond_listed_match_all(dachsmond_rules rules, size_t names, size_t n, const uint8_t *tree,
                                          size_t tree_len, const uint8_t *steps, size_t steps_len,
                                          const uint8_t *tests, size_t tests_len, const uint8_t *edges,
                                          size_t edges_len, const uint16_t *operands, size_t operands_len,
                                          const uint64_t *times, size_t times_len, const uint8_t *states,
                                          size_t states_len, uint8_t *answers, size_t answers_len, uint32_t *tried,
                                          size_t tried_len, uint8_t *given, size_t given_len, uint64_t *began,
                                          size_t began_len);

/* How many of the n rows they answer with yes, no and unknown, together n - 1: 18, 10, 15. */
dachsmond_counted dachsmond_listed_totals(dachsmond_rules rules, size_t names, size_t n, const uint8_t *tree,
                                          size_t tree_len, const uint8_t *steps, size_t steps_len,
                                          const uint8_t *tests, size_t tests_len, const uint8_t *edges,
                                          size_t edges_len, const uint16_t *operands, size_t operands_len,
                                          const uint8_t *states, size_t states_len);

/* One row more, with its time: their answer, how many of them were tried, where its match began, and the queue with
   the row in it: 18, 10, 15, 13. */
dachsmond_pushed dachsmond_listed_push(dachsmond_rules rules, size_t names, const uint8_t *tree, size_t tree_len,
                                       const uint8_t *steps, size_t steps_len, const uint8_t *tests, size_t tests_len,
                                       const uint8_t *edges, size_t edges_len, const uint16_t *operands,
                                       size_t operands_len, dachsmond_queue queue, uint64_t time, const uint8_t *row,
                                       size_t row_len);

/* The listing of the answers of a vector tree at all n rows, a line for each with its time and a last line with the
   totals, at the front of `out`; its length: 18, 10, 15, 9. */
dachsmond_told dachsmond_list(dachsmond_rules rules, size_t names, size_t n, const uint8_t *tree, size_t tree_len,
                              const uint64_t *times, size_t times_len, const uint8_t *states, size_t states_len,
                              uint8_t *out, size_t out_len);

/* The line of the table's heading at the front of `out`; its length: 9. */
dachsmond_told dachsmond_table_heading(uint8_t *out, size_t out_len);

/* The line of a pattern with the totals of its vector tree on n rows, at the front of `out`; its length: 18, 10, 15, 9.
   The pattern stands there as it is handed in, but a byte of it below 32 is shown as a space. */
dachsmond_told dachsmond_table_line(dachsmond_rules rules, size_t names, size_t n, const uint8_t *tree,
                                    size_t tree_len, const uint8_t *states, size_t states_len, const uint8_t *pattern,
                                    size_t pattern_len, uint8_t *out, size_t out_len);

/* The line of a pattern that was refused with a number at a place, at the front of `out`; its length: 9. */
dachsmond_told dachsmond_table_refused(const uint8_t *pattern, size_t pattern_len, uint8_t number, size_t place,
                                       uint8_t *out, size_t out_len);

/* The line of the sums over so many patterns on a trace of so many events, which the program that counted them hands
   in, at the front of `out`; its length: 9. */
dachsmond_told dachsmond_table_total(uint64_t yes, uint64_t unknown, uint64_t no, uint64_t patterns, uint64_t events,
                                     uint8_t *out, size_t out_len);

#ifdef __cplusplus
}
#endif
#endif
