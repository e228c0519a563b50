/* The proved library, through its header. */
#include "../include/dachsmond.h"
#include "measure.h"
#include <stdio.h>
#include <stdlib.h>
#include <string.h>

static void stop_if(const char *call, uint8_t number, size_t place)
{
    if (number == 0) return;
    fprintf(stderr, "%s: refused with %u at %zu\n", call, number, place);
    exit(1);
}

void library_read(const uint8_t *file, size_t length, Trace *t)
{
    dachsmond_trace r = dachsmond_read_trace(file, length, t->slots, sizeof t->slots, t->times, MAX_ROWS, t->states,
                                             sizeof t->states);
    stop_if("read_trace", r.number, r.place);
    t->names = r.names;
    t->rows = r.rows;
}

void library_tree(const char *text, const Trace *t, Pattern *p)
{
    dachsmond_expression e = dachsmond_read_expression(dachsmond_old_rules(), t->slots, 32 * t->names,
                                                       (const uint8_t *)text, strlen(text), true);
    stop_if(text, e.number, e.place);
    p->length = e.len;
    memcpy(p->tree, e.tree, e.len);
}

void library_rewrite(Pattern *p, size_t names)
{
    dachsmond_told r = dachsmond_rewrite(dachsmond_old_rules(), names, p->tree, p->length, p->steps, sizeof p->steps,
                                         p->tests, sizeof p->tests, p->edges, sizeof p->edges, p->operands,
                                         sizeof p->operands / sizeof *p->operands);
    stop_if("rewrite", r.number, r.place);
    p->alternatives = r.count;
}

Counts library_totals(const Pattern *p, const Trace *t, size_t rows)
{
    dachsmond_counted r =
        dachsmond_totals(dachsmond_old_rules(), t->names, rows, p->tree, p->length, t->states, rows * t->names);
    stop_if("totals", r.number, r.place);
    return (Counts){r.yes, r.no, r.unknown};
}

#define LISTS(p) p->steps, p->alternatives, p->tests, p->all_steps, p->edges, p->all_tests, p->operands, p->all_tests

Matched library_row(const Pattern *p, bool lists, size_t names, const uint64_t *times, const uint8_t *states,
                    size_t row)
{
    dachsmond_rules rules = dachsmond_old_rules();
    size_t n = row + 1;
    dachsmond_matched r =
        lists ? dachsmond_listed_match_row(rules, names, n, p->tree, p->length, LISTS(p), times, n, states, n * names,
                                           (uint32_t)row)
              : dachsmond_match_row(rules, names, n, p->tree, p->length, times, n, states, n * names, (uint32_t)row);
    stop_if("match_row", r.number, r.place);
    return (Matched){r.answer, r.tries, r.given, r.began};
}

static dachsmond_queue queue;

void library_empty(void) { queue = dachsmond_empty_queue(); }

Matched library_push(const Pattern *p, bool lists, size_t names, uint64_t time, const uint8_t *row)
{
    dachsmond_rules rules = dachsmond_old_rules();
    dachsmond_pushed r =
        lists ? dachsmond_listed_push(rules, names, p->tree, p->length, LISTS(p), queue, time, row, names)
              : dachsmond_push(rules, names, p->tree, p->length, queue, time, row, names);
    stop_if("push", r.number, r.place);
    queue = r.queue;
    return (Matched){r.answer, r.tries, r.given, r.began};
}
