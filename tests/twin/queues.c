/* The twin's side of the queue: 18, 10 (the pattern, the rows kept, their times), 15, 13. A push answers as the last
   row of one trace: what was kept at first, and all that was pushed since. */
#include "calls.h"
#include "twin.h"
#include <string.h>

enum { MOST = 512 };

typedef struct { uint32_t kept; byte states[MOST]; uint64_t times[MAX_STEPS]; } Queue;

static Queue take_queue(void)
{
    Queue q = {.kept = (uint32_t)take_number()};
    Bytes held = take_bytes();
    memcpy(q.states, held.at, (size_t)held.length);
    held = take_bytes();
    memcpy(q.times, held.at, (size_t)held.length);
    return q;
}

/* Of the trace's first n rows the last K, or all, their times, and zeros behind them. */
static Queue queue_of(const Trace *t, long n, long k)
{
    Queue q = {.kept = (uint32_t)(n < k ? n : k)};
    memcpy(q.states, t->states + (n - q.kept) * t->names, q.kept * (size_t)t->names);
    memcpy(q.times, t->times + n - q.kept, q.kept * sizeof *q.times);
    return q;
}

static uint64_t sum_queue(uint64_t sum, const Queue *q)
{
    return sum_of(sum_of(sum_of(sum, &q->kept, 4), q->states, MOST), q->times, sizeof q->times);
}

/* 18 and 10, which are the same at every push. */
static Refusal check(Pattern *p, long names, long size, const Queue *q)
{
    Refusal r = check_rows(names, 1, size);
    if (!r.number) r = check_pattern(p, names, VECTOR);
    if (r.number) return r;
    if (q->kept > (uint32_t)p->longest || first_code(q->states, q->kept * names).number) return (Refusal){10, 0};
    if (first_early(q->times, q->kept) < q->kept) return (Refusal){10, 0};
    return r;
}

/* 15, and 13 for a time that is not above the last, which is at 0: of the row. */
static Refusal check_push(const Trace *t, long i)
{
    Refusal r = first_code(t->states + i * t->names, t->names);
    if (!r.number && i > 0 && t->times[i] <= t->times[i - 1]) r = (Refusal){13, 0};
    return r;
}

static uint64_t push_rows(const Pattern *p, const Trace *t, long kept, Queue *q)
{
    uint64_t sum = 0;
    for (long i = kept; i < t->rows; i++) {
        int given;
        if (refused(check_push(t, i))) return sum_queue(sum, q);
        printf("%d:%ld", number_at(p, t, i), tries_at(p->all, t, i));
        uint64_t time = time_at(p, t, i, &given);
        printf(":%d:%llu ", given, (unsigned long long)time);
        *q = queue_of(t, i + 1, p->longest);
        sum = sum_queue(sum, q);
    }
    return sum;
}

static void pushes(int listed)
{
    long names = take_number();
    Pattern p = take_pattern(listed);
    Queue q = take_queue();
    long size = take_number();
    Bytes rows = take_bytes(), times = take_bytes();
    printf("pushed ");
    if (refused(check(&p, names, size, &q))) end_line(sum_queue(0, &q));
    else {
        Bytes whole = lend(q.kept * names + rows.length), clock = lend(8 * q.kept + times.length);
        memcpy(whole.at, q.states, (size_t)(q.kept * names));
        memcpy(whole.at + q.kept * names, rows.at, (size_t)rows.length);
        memcpy(clock.at, q.times, 8 * (size_t)q.kept);
        memcpy(clock.at + 8 * q.kept, times.at, (size_t)times.length);
        Trace t = {(int)names, q.kept + rows.length / size, whole.at, (const uint64_t *)clock.at};
        end_line(push_rows(&p, &t, q.kept, &q));
    }
}

void do_pushes(void) { pushes(0); }
void do_listed_pushes(void) { pushes(1); }
