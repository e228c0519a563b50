/* The twin's side of the calls over rows: 18, 10, 15 (trace, then new row), 13 where times are handed in, 19, and the
   answers by windows. */
#include "calls.h"
#include "twin.h"
#include <string.h>

Asked take_asked(int listed)
{
    Asked a;
    a.names = take_number();
    a.n = take_number();
    a.pattern = take_pattern(listed);
    a.states = take_bytes();
    a.times = (Bytes){NULL, 0};
    a.trace = (Trace){(int)a.names, a.n, a.states.at, NULL};
    return a;
}

/* With a time for each row. */
static Asked take_timed(int listed)
{
    Asked a = take_asked(listed);
    a.times = take_bytes();
    a.trace.times = (const uint64_t *)a.times.at;
    return a;
}

Refusal check_asked(Asked *a, int lists, int sort)
{
    Refusal r = check_rows(a->names, a->n, a->states.length);
    if (!r.number && !lists) r = (Refusal){18, 0};
    if (!r.number) r = check_pattern(&a->pattern, a->names, sort);
    if (!r.number) r = first_code(a->states.at, a->states.length);
    return r;
}

/* Document 02, [12]: the times are a list of exactly n too; 13 after 15. */
static Refusal check_timed(Asked *a, int lists)
{
    Refusal r = check_asked(a, lists && a->times.length == 8 * a->n, VECTOR);
    long early = r.number ? 0 : first_early(a->trace.times, a->n);
    return !r.number && early < a->n ? (Refusal){13, early} : r;
}

/* 19 last. */
static Refusal check_row(Asked *a, long row, int sort)
{
    Refusal r = check_asked(a, 1, sort);
    return !r.number && row >= a->n ? (Refusal){19, 0} : r;
}

void do_values(void)
{
    Asked a = take_asked(0);
    Bytes out = lend(take_number());
    if (!refused(check_asked(&a, out.length == a.n, BOOLEAN))) {
        for (long i = 0; i < a.n; i++) out.at[i] = (byte)value_at(a.pattern.node, &a.trace, i);
        printf("done %ld", a.n);
    }
    end_line(sum_of(0, out.at, out.length));
}

void do_row_state(void)
{
    Asked a = take_asked(0);
    long row = take_number();
    if (!refused(check_row(&a, row, BOOLEAN)))
        printf("row %d %d", state_at(a.pattern.node, &a.trace, row), value_at(a.pattern.node, &a.trace, row));
    end_line(0);
}

/* Over all windows, however long. */
void do_row_answer(void)
{
    Asked a = take_asked(0);
    long row = take_number();
    if (!refused(check_row(&a, row, VECTOR)))
        printf("row %d", row == 0 ? 3 : number_of(row_answer(a.pattern.meant, &a.trace, row, row)));
    end_line(0);
}

void do_window(void)
{
    Asked a = take_asked(0);
    long from = take_number(), to = take_number();
    if (!refused(check_row(&a, from > to ? from : to, VECTOR)))
        printf("window %d", number_of(answer_on(a.pattern.meant, &a.trace, from, to)));
    end_line(0);
}

static void match_row(int listed)
{
    Asked a = take_timed(listed);
    long row = take_number();
    int given;
    Refusal r = check_timed(&a, 1);
    if (!r.number && row >= a.n) r = (Refusal){19, 0};
    if (!refused(r)) {
        printf("row %d %ld", number_at(&a.pattern, &a.trace, row), tries_at(a.pattern.all, &a.trace, row));
        uint64_t time = time_at(&a.pattern, &a.trace, row, &given);
        printf(" %d %llu", given, (unsigned long long)time);
    }
    end_line(0);
}

static void match_all(int listed)
{
    Asked a = take_timed(listed);
    Bytes out = lend(take_number()), tried = lend(4 * take_number());
    Bytes given = lend(take_number()), began = lend(8 * take_number());
    int full = out.length == a.n && tried.length == 4 * a.n && given.length == a.n && began.length == 8 * a.n;
    if (!refused(check_timed(&a, full))) {
        for (long i = 0; i < a.n; i++) {
            int is_given;
            out.at[i] = (byte)number_at(&a.pattern, &a.trace, i);
            ((uint32_t *)tried.at)[i] = (uint32_t)tries_at(a.pattern.all, &a.trace, i);
            ((uint64_t *)began.at)[i] = time_at(&a.pattern, &a.trace, i, &is_given);
            given.at[i] = (byte)is_given;
        }
        printf("done %ld", a.n);
    }
    uint64_t sum = sum_of(sum_of(0, out.at, out.length), tried.at, tried.length);
    end_line(sum_of(sum_of(sum, given.at, given.length), began.at, began.length));
}

static void totals(int listed)
{
    Asked a = take_asked(listed);
    if (!refused(check_asked(&a, 1, VECTOR))) {
        long count[4] = {0};
        for (long i = 0; i < a.n; i++) count[number_at(&a.pattern, &a.trace, i)]++;
        printf("totals %ld %ld %ld", count[1], count[0], count[2]);
    }
    end_line(0);
}

void do_match_row(void) { match_row(0); }
void do_match_all(void) { match_all(0); }
void do_totals(void) { totals(0); }
void do_listed_row(void) { match_row(1); }
void do_listed_all(void) { match_all(1); }
void do_listed_totals(void) { totals(1); }

/* The answers of row r and of the K rows behind it can depend on row r. */
void do_correction(void)
{
    Asked a = take_asked(0);
    Bytes answers = take_bytes();
    long row = take_number();
    Bytes fresh = take_bytes();
    Refusal r = check_asked(&a, answers.length == a.n && fresh.length == a.names, VECTOR);
    if (!r.number) r = first_code(fresh.at, fresh.length);
    if (!r.number && row >= a.n) r = (Refusal){19, 0};
    if (!refused(r)) {
        memcpy(a.states.at + row * a.names, fresh.at, (size_t)a.names);
        forget_windows();
        for (long i = row; i <= row + a.pattern.longest && i < a.n; i++)
            answers.at[i] = (byte)number_at(&a.pattern, &a.trace, i);
        printf("done 1");
    }
    end_line(sum_of(sum_of(0, a.states.at, a.states.length), answers.at, answers.length));
}
