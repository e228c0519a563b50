/* The library's side of the calls over rows. */
#include "library.h"

typedef struct { size_t names, n; Bytes tree, states, times; } Asked;

#define ASKED(a) a.names, a.n, a.tree.at, a.tree.length, a.states.at, a.states.length
#define TIMED(a)                                                                                              \
    a.names, a.n, a.tree.at, a.tree.length, (const uint64_t *)a.times.at, a.times.length / 8, a.states.at,    \
        a.states.length

static Asked take_asked(void)
{
    Asked a;
    a.names = take_number();
    a.n = take_number();
    a.tree = take_bytes();
    a.states = take_bytes();
    return a;
}

/* With a time for each row. */
static Asked take_timed(void)
{
    Asked a = take_asked();
    a.times = take_bytes();
    return a;
}

void do_values(void)
{
    Asked a = take_asked();
    Bytes out = lend(take_number());
    dachsmond_told r = dachsmond_values(rules, ASKED(a), out.at, out.length);
    if (!refused(r.number, r.place, r.count)) printf("done %zu", r.count);
    end_line(sum_of(0, out.at, out.length));
}

void do_row_state(void)
{
    Asked a = take_asked();
    uint32_t row = take_number();
    dachsmond_told s = dachsmond_row_state(rules, ASKED(a), row);
    dachsmond_told v = dachsmond_row_value(rules, ASKED(a), row);
    if (s.number != v.number || s.place != v.place) printf("two refusals");
    else if (!refused(s.number, s.place, s.count | v.count)) printf("row %zu %zu", s.count, v.count);
    end_line(0);
}

void do_row_answer(void)
{
    Asked a = take_asked();
    uint32_t row = take_number();
    dachsmond_answered r = dachsmond_row_answer(rules, ASKED(a), row);
    if (!refused(r.number, r.place, r.answer)) printf("row %u", r.answer);
    end_line(0);
}

void do_window(void)
{
    Asked a = take_asked();
    uint32_t from = take_number(), to = take_number();
    dachsmond_answered r = dachsmond_window_answer(rules, ASKED(a), from, to);
    if (!refused(r.number, r.place, r.answer)) printf("window %u", r.answer);
    end_line(0);
}

void do_match_row(void)
{
    Asked a = take_timed();
    say_matched(dachsmond_match_row(rules, TIMED(a), take_number()));
}

void do_match_all(void)
{
    Asked a = take_timed();
    Lent l = lend_four();
    say_all(dachsmond_match_all(rules, TIMED(a), FOUR(l)), l);
}

void do_totals(void)
{
    Asked a = take_asked();
    dachsmond_counted r = dachsmond_totals(rules, ASKED(a));
    if (!refused(r.number, r.place, r.yes | r.no | r.unknown)) printf("totals %u %u %u", r.yes, r.no, r.unknown);
    end_line(0);
}

void do_correction(void)
{
    Asked a = take_asked();
    Bytes answers = take_bytes();
    uint32_t row = take_number();
    Bytes fresh = take_bytes();
    dachsmond_told r = dachsmond_correct(rules, ASKED(a), answers.at, answers.length, row, fresh.at, fresh.length);
    if (!refused(r.number, r.place, r.count)) printf("done %zu", r.count);
    end_line(sum_of(sum_of(0, a.states.at, a.states.length), answers.at, answers.length));
}

void do_rewrite(void)
{
    size_t names = take_number();
    Bytes tree = take_bytes(), steps = lend(take_number()), tests = lend(take_number()), edges = lend(take_number());
    Bytes operands = lend(2 * take_number());
    dachsmond_told r =
        dachsmond_rewrite(rules, names, tree.at, tree.length, steps.at, steps.length, tests.at, tests.length, edges.at,
                          edges.length, (uint16_t *)operands.at, operands.length / 2);
    if (!refused(r.number, r.place, r.count)) printf("alternatives %zu", r.count);
    uint64_t sum = sum_of(sum_of(0, steps.at, steps.length), tests.at, tests.length);
    end_line(sum_of(sum_of(sum, edges.at, edges.length), operands.at, operands.length));
}

void do_contradictions(void)
{
    size_t names = take_number();
    Bytes tree = take_bytes(), flags = lend(take_number());
    dachsmond_told r = dachsmond_contradictions(rules, names, tree.at, tree.length, flags.at, flags.length);
    if (!refused(r.number, r.place, r.count)) printf("flags %zu", r.count);
    end_line(sum_of(0, flags.at, flags.length));
}
