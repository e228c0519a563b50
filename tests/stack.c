/* How much stack the calls take, on the inputs that recurse deepest.
     stack          a line for each function: its name, and the bytes below its caller, the most over all inputs
     stack BYTES    the same calls in a thread of so many bytes, with a page below it that cannot be touched
   The stack of a thread is painted before a call; afterwards the lowest byte that is not paint tells how far down it
   was written. The inputs stand in stack-inputs.h. */
#define _GNU_SOURCE
#include "../include/dachsmond.h"
#include <pthread.h>
#include <signal.h>
#include <stdio.h>
#include <stdlib.h>
#include <string.h>
#include <sys/mman.h>
#include <unistd.h>

enum { ROOM = 4 << 20, PAGE = 4096, ROWS = 65535, LONG = 65535 };
static const uint64_t PAINT = 0x5A5A5A5A5A5A5A5A;

/* what the calls are made on; where they leave what they hand back does not count as theirs */
static uint8_t names[32 * 32], text[8192], tree[LONG], row[32], out[ROWS * 44], file[ROWS * 44];
static size_t k = 1, n = 2, text_len, tree_len, file_len;
static bool vector;
static uint8_t states[32 * ROWS], answers[ROWS], given[ROWS], steps[64], tests[1024], edges[4096], flags[64];
static uint64_t times[ROWS], began[ROWS], clock_time;
static uint32_t tried[ROWS];
static uint16_t operands[4096];
static size_t steps_len, tests_len, edges_len;
static dachsmond_queue queue;
static dachsmond_told told;
static dachsmond_expression expression;
static dachsmond_trace trace;
static dachsmond_changed changed;
static dachsmond_answered answered;
static dachsmond_matched matched;
static dachsmond_counted counted;
static dachsmond_pushed pushed;

#define LISTS steps, steps_len, tests, tests_len, edges, edges_len, operands, edges_len
#define TRACE states, n *k
#define FOUR answers, n, tried, n, given, n, began, n
static dachsmond_rules rules;
static void old_rules(void) { rules = dachsmond_old_rules(); }
static void version(void) { told.count = dachsmond_version(); }
static void check_names(void) { told = dachsmond_check_names(names, 32 * k); }
static void read_expression(void)
{
    expression = dachsmond_read_expression(rules, names, 32 * k, text, text_len, vector);
}
static void write_expression(void)
{
    told = dachsmond_write_expression(names, 32 * k, tree, tree_len, vector, out, sizeof out);
}
static void read_trace(void)
{
    trace = dachsmond_read_trace(file, file_len, names, sizeof names, times, ROWS, states, sizeof states);
}
static void write_trace(void)
{
    told = dachsmond_write_trace(names, 32 * k, times, n, TRACE, n, out, sizeof out);
}
static void changes_at(void) { changed = dachsmond_changes_at(k, n, TRACE, n - 1); }
static void row_state(void) { told = dachsmond_row_state(rules, k, n, tree, tree_len, TRACE, n - 1); }
static void row_value(void) { told = dachsmond_row_value(rules, k, n, tree, tree_len, TRACE, n - 1); }
static void values(void) { told = dachsmond_values(rules, k, n, tree, tree_len, TRACE, answers, n); }
static void row_answer(void) { answered = dachsmond_row_answer(rules, k, n, tree, tree_len, TRACE, n - 1); }
static void window_answer(void) { answered = dachsmond_window_answer(rules, k, n, tree, tree_len, TRACE, 0, n - 1); }
static void match_row(void) { matched = dachsmond_match_row(rules, k, n, tree, tree_len, times, n, TRACE, n - 1); }
static void match_all(void) { told = dachsmond_match_all(rules, k, n, tree, tree_len, times, n, TRACE, FOUR); }
static void totals(void) { counted = dachsmond_totals(rules, k, n, tree, tree_len, TRACE); }
static void rewrite(void)
{
    told = dachsmond_rewrite(rules, k, tree, tree_len, steps, sizeof steps, tests, sizeof tests, edges, sizeof edges,
                             operands, 4096);
}
static void contradictions(void) { told = dachsmond_contradictions(rules, k, tree, tree_len, flags, sizeof flags); }
static void correct(void) { told = dachsmond_correct(rules, k, n, tree, tree_len, TRACE, answers, n, 0, row, k); }
static void empty_queue(void) { queue = dachsmond_empty_queue(); }
static void push(void) { pushed = dachsmond_push(rules, k, tree, tree_len, queue, ++clock_time, row, k); }
static void listed_fits(void) { told = dachsmond_listed_fits(k, tree, tree_len, LISTS); }
static void listed_match_row(void)
{
    matched = dachsmond_listed_match_row(rules, k, n, tree, tree_len, LISTS, times, n, TRACE, n - 1);
}
static void listed_match_all(void)
{
    told = dachsmond_listed_match_all(rules, k, n, tree, tree_len, LISTS, times, n, TRACE, FOUR);
}
static void listed_totals(void) { counted = dachsmond_listed_totals(rules, k, n, tree, tree_len, LISTS, TRACE); }
static void listed_push(void)
{
    pushed = dachsmond_listed_push(rules, k, tree, tree_len, LISTS, queue, ++clock_time, row, k);
}
static void list(void) { told = dachsmond_list(rules, k, n, tree, tree_len, times, n, TRACE, out, sizeof out); }
static void table_heading(void) { told = dachsmond_table_heading(out, sizeof out); }
static void table_line(void)
{
    told = dachsmond_table_line(rules, k, n, tree, tree_len, TRACE, text, text_len, out, sizeof out);
}
static void table_refused(void) { told = dachsmond_table_refused(text, text_len, 255, SIZE_MAX, out, sizeof out); }
static void table_total(void)
{
    told = dachsmond_table_total(UINT64_MAX, UINT64_MAX, UINT64_MAX, UINT64_MAX, UINT64_MAX, out, sizeof out);
}

#define F(f) {f, #f, 0}
static struct {
    void (*call)(void);
    const char *name;
    size_t most;
} functions[] = {F(check_names),      F(read_expression),  F(write_expression), F(read_trace),     F(write_trace),
                 F(changes_at),       F(row_state),        F(row_value),        F(values),         F(row_answer),
                 F(window_answer),    F(match_row),        F(match_all),        F(totals),         F(rewrite),
                 F(contradictions),   F(correct),          F(empty_queue),      F(push),           F(listed_fits),
                 F(listed_match_row), F(listed_match_all), F(listed_totals),    F(listed_push),    F(list),
                 F(table_heading),    F(table_line),       F(table_refused),    F(table_total),    F(version),
                 F(old_rules)};
enum { FUNCTIONS = sizeof functions / sizeof *functions };

static uint8_t *bottom;
static bool painting;
static const char *now = "";

static __attribute__((noinline)) void measure(size_t f)
{
    static uint64_t *painted; /* what is below is paint */
    uint64_t *here, *p;
    now = functions[f].name;
    __asm__ volatile("mov %%rsp, %0" : "=r"(here));
    if (painting) {
        p = painted ? painted : (uint64_t *)bottom;
        for (; p < here - 32; p++) *(volatile uint64_t *)p = PAINT;
    }
    functions[f].call();
    if (painting) {
        for (p = (uint64_t *)bottom; p < here - 32 && *(volatile uint64_t *)p == PAINT; p++) {}
        painted = p;
        size_t used = (size_t)((uint8_t *)here - (uint8_t *)p);
        if (functions[f].most < used) functions[f].most = used;
    }
}

static void call(void (*f)(void))
{
    for (size_t i = 0; i < FUNCTIONS; i++)
        if (functions[i].call == f) measure(i);
}

/* every call that takes a tree, on `tree`; the listed ones on its alternatives, where it has some */
static void on_tree(void)
{
    static void (*const of_trees[])(void) = {write_expression, row_state, row_value,      values,
                                             row_answer,       window_answer, match_row,  match_all,
                                             totals,           contradictions, correct,   list,
                                             table_line,       rewrite};
    static void (*const of_lists[])(void) = {listed_fits, listed_match_row, listed_match_all, listed_totals};
    for (size_t i = 0; i < sizeof of_trees / sizeof *of_trees; i++) call(of_trees[i]);
    bool some = !told.number;
    if (some) {
        steps_len = told.count, tests_len = edges_len = 0;
        for (size_t i = 0; i < steps_len; i++) tests_len += steps[i];
        for (size_t i = 0; i < tests_len; i++) edges_len += tests[i];
        for (size_t i = 0; i < sizeof of_lists / sizeof *of_lists; i++) call(of_lists[i]);
    }
    for (size_t i = 0; i < (some ? n : 1); i++) {
        call(push);
        queue = pushed.queue;
        if (some) call(listed_push);
    }
    queue = dachsmond_empty_queue();
}

#include "stack-inputs.h"

static void *all(void *unused)
{
    static uint8_t other[64 * 1024];
    stack_t signals = {.ss_sp = other, .ss_size = sizeof other};
    sigaltstack(&signals, NULL);
    names[0] = 'A';
    for (size_t i = 1; i < 40; i += 2) states[i] = 1;
    row[0] = 1;
    for (size_t i = 0; i < ROWS; i++) times[i] = i;
    call(empty_queue);
    call(old_rules);
    for (int steady = 0; steady < 2; steady++) { /* without steady pins, and with them */
        rules.steady_pins = steady;
        booleans();
        vectors();
        by_hand();
    }
    long_trace();
    return unused;
}

static void died(int signal)
{
    static const char TEXT[] = ": the stack did not suffice\n";
    (void)signal;
    if (write(2, now, strlen(now)) < 0 || write(2, TEXT, sizeof TEXT - 1) < 0) _exit(3);
    _exit(1);
}

int main(int words, char **word)
{
    size_t bytes = words > 1 ? strtoul(word[1], NULL, 10) : ROOM;
    pthread_attr_t attributes;
    pthread_t thread;
    struct sigaction action = {.sa_handler = died, .sa_flags = SA_ONSTACK};
    painting = words < 2;
    uint8_t *memory = mmap(NULL, bytes + PAGE, PROT_READ | PROT_WRITE, MAP_PRIVATE | MAP_ANONYMOUS, -1, 0);
    if (memory == MAP_FAILED || mprotect(memory, PAGE, PROT_NONE)) return 3;
    bottom = memory + PAGE;
    sigaction(SIGSEGV, &action, NULL);
    if (pthread_attr_init(&attributes) || pthread_attr_setstack(&attributes, bottom, bytes)) return 3;
    if (pthread_create(&thread, &attributes, all, NULL) || pthread_join(thread, NULL)) return 3;
    if (painting)
        for (size_t i = 0; i < FUNCTIONS; i++) printf("dachsmond_%s %zu\n", functions[i].name, functions[i].most);
    return 0;
}
