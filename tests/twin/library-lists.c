/* The library's side of the queue and of the calls by alternatives handed in. */
#include "library.h"
#include <string.h>

typedef struct { size_t names, n; Bytes tree, steps, tests, edges, operands, states, times; } Asked;

#define TREE(a) a.tree.at, a.tree.length
#define LISTS(a)                                                                                              \
    a.steps.at, a.steps.length, a.tests.at, a.tests.length, a.edges.at, a.edges.length,                       \
        (const uint16_t *)a.operands.at, a.operands.length / 2
#define STATES(a) a.states.at, a.states.length
#define TIMES(a) (const uint64_t *)a.times.at, a.times.length / 8

static void take_lists(Asked *a)
{
    a->tree = take_bytes();
    a->steps = take_bytes();
    a->tests = take_bytes();
    a->edges = take_bytes();
    a->operands = take_bytes();
}

static Asked take_asked(void)
{
    Asked a;
    a.names = take_number();
    a.n = take_number();
    take_lists(&a);
    a.states = take_bytes();
    return a;
}

/* With a time for each row. */
static Asked take_timed(void)
{
    Asked a = take_asked();
    a.times = take_bytes();
    return a;
}

void do_listed_fits(void)
{
    Asked a = {.names = take_number()};
    take_lists(&a);
    dachsmond_told r = dachsmond_listed_fits(a.names, TREE(a), LISTS(a));
    if (!refused(r.number, r.place, r.count)) printf("fits %zu", r.count);
    end_line(0);
}

void do_listed_row(void)
{
    Asked a = take_timed();
    uint32_t row = take_number();
    say_matched(dachsmond_listed_match_row(rules, a.names, a.n, TREE(a), LISTS(a), TIMES(a), STATES(a), row));
}

void do_listed_all(void)
{
    Asked a = take_timed();
    Lent l = lend_four();
    say_all(dachsmond_listed_match_all(rules, a.names, a.n, TREE(a), LISTS(a), TIMES(a), STATES(a), FOUR(l)), l);
}

void do_listed_totals(void)
{
    Asked a = take_asked();
    dachsmond_counted r = dachsmond_listed_totals(rules, a.names, a.n, TREE(a), LISTS(a), STATES(a));
    if (!refused(r.number, r.place, r.yes | r.no | r.unknown)) printf("totals %u %u %u", r.yes, r.no, r.unknown);
    end_line(0);
}

static dachsmond_queue take_queue(void)
{
    dachsmond_queue queue = dachsmond_empty_queue();
    queue.kept = take_number();
    Bytes held = take_bytes();
    memcpy(queue.states, held.at, held.length);
    held = take_bytes();
    memcpy(queue.times, held.at, held.length);
    return queue;
}

static dachsmond_pushed push(const Asked *a, int listed, dachsmond_queue queue, uint64_t time, const uint8_t *row,
                             size_t size)
{
    if (listed) return dachsmond_listed_push(rules, a->names, TREE((*a)), LISTS((*a)), queue, time, row, size);
    return dachsmond_push(rules, a->names, TREE((*a)), queue, time, row, size);
}

static uint64_t sum_queue(uint64_t sum, const dachsmond_queue *q)
{
    return sum_of(sum_of(sum_of(sum, &q->kept, 4), q->states, sizeof q->states), q->times, sizeof q->times);
}

/* Rows of a size, one after the other, up to the first that is refused; a row of no states is one push. */
static void push_rows(const Asked *a, int listed)
{
    dachsmond_queue queue = take_queue();
    size_t size = take_number();
    Bytes rows = take_bytes(), times = take_bytes();
    uint64_t sum = 0;
    printf("pushed ");
    for (size_t i = 0, pushes = size ? rows.length / size : 1; i < pushes; i++) {
        dachsmond_pushed r = push(a, listed, queue, ((const uint64_t *)times.at)[i], rows.at + i * size, size);
        sum = sum_queue(sum, &r.queue);
        if (refused(r.number, r.place, r.answer | r.tries | r.given | r.began)) break;
        printf("%u:%u:%u:%llu ", r.answer, r.tries, r.given, (unsigned long long)r.began);
        queue = r.queue;
    }
    end_line(sum);
}

void do_pushes(void)
{
    Asked a = {.names = take_number()};
    a.tree = take_bytes();
    push_rows(&a, 0);
}

void do_listed_pushes(void)
{
    Asked a = {.names = take_number()};
    take_lists(&a);
    push_rows(&a, 1);
}
