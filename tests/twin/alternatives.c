/* Chapter "Alternatives": built as they are told; limit 8, tries, where a match began, and contradictions. */
#include "twin.h"
#include <stdlib.h>

static Alternatives *last;

static Alternatives *none(void) { return calloc(1, sizeof(Alternatives)); }

static void release(Alternatives *all)
{
    if (all == NULL) return;
    for (int i = 0; i < all->count; i++) free(all->list[i]);
    free(all);
}

/* Adds a step of left tests, then right ones; 0 where over a limit. */
static int add_step(Alternative *out, const Test *left, int n, const Test *right, int m)
{
    if (out->steps == MAX_STEPS || out->total + n + m > MAX_TESTS) return 0;
    out->tests[out->steps++] = n + m;
    while (n-- > 0) out->test[out->total++] = *left++;
    while (m-- > 0) out->test[out->total++] = *right++;
    return 1;
}

static int one_after_other(const Alternative *p, const Alternative *q, Alternative *out)
{
    const Test *t = p->test;
    for (int j = 0; j < p->steps; t += p->tests[j++])
        if (!add_step(out, t, p->tests[j], NULL, 0)) return 0;
    t = q->test;
    for (int j = 0; j < q->steps; t += q->tests[j++])
        if (!add_step(out, t, q->tests[j], NULL, 0)) return 0;
    return 1;
}

/* Both end together: empty steps before the shorter. */
static int side_by_side(const Alternative *p, const Alternative *q, Alternative *out)
{
    const Test *t = p->test, *u = q->test;
    int steps = p->steps > q->steps ? p->steps : q->steps;
    for (int j = 0; j < steps; j++) {
        int i = j - (steps - p->steps), k = j - (steps - q->steps);
        int n = i >= 0 ? p->tests[i] : 0, m = k >= 0 ? q->tests[k] : 0;
        if (!add_step(out, t, n, u, m)) return 0;
        t += n;
        u += m;
    }
    return 1;
}

/* Adds one for each left one and each right one; 0 where over a limit. */
static int add_pairs(Alternatives *out, const Alternatives *p, const Alternatives *q,
                     int (*join)(const Alternative *, const Alternative *, Alternative *))
{
    for (int i = 0; i < p->count; i++)
        for (int j = 0; j < q->count; j++) {
            if (out->count == MAX_ALTS) return 0;
            Alternative *a = out->list[out->count++] = calloc(1, sizeof(Alternative));
            if (!join(p->list[i], q->list[j], a)) return 0;
        }
    return 1;
}

static int add_all(Alternatives *out, const Alternatives *p)
{
    for (int i = 0; i < p->count; i++) {
        if (out->count == MAX_ALTS) return 0;
        Alternative *a = out->list[out->count++] = malloc(sizeof(Alternative));
        *a = *p->list[i];
    }
    return 1;
}

/* `11 c` behind the tests of each step. */
static int add_condition(Alternatives *out, const Alternatives *p, Node *c)
{
    Test held = {9 * 2 + 2, c};
    for (int i = 0; i < p->count; i++) {
        const Test *t = p->list[i]->test;
        Alternative *a = out->list[out->count++] = calloc(1, sizeof(Alternative));
        for (int j = 0; j < p->list[i]->steps; t += p->list[i]->tests[j++])
            if (!add_step(a, t, p->list[i]->tests[j], &held, 1)) return 0;
    }
    return 1;
}

static int add_joined(Alternatives *out, Kind kind, const Alternatives *p, const Alternatives *q)
{
    switch (kind) {
    case OR: return add_all(out, p) && add_all(out, q);
    case AND: return add_pairs(out, p, q, side_by_side);
    case THEN: return add_pairs(out, p, q, one_after_other);
    case EITHER: return add_joined(out, THEN, p, q) && add_joined(out, THEN, q, p);
    case WITH_THEN: return add_joined(out, AND, p, q) && add_joined(out, THEN, p, q);
    default: return add_joined(out, THEN, p, q) && add_joined(out, AND, p, q) && add_joined(out, THEN, q, p);
    }
}

static Alternatives *build(const Node *n)
{
    Alternatives *p = NULL, *q = NULL, *out = none();
    int ok;
    if (n->kind == EDGE) {
        Test t = {n->code, n->a};
        out->list[out->count++] = calloc(1, sizeof(Alternative));
        ok = add_step(out->list[0], &t, 1, NULL, 0);
    } else if (n->kind == AND && n->b->sort == BOOLEAN) ok = (p = build(n->a)) && add_condition(out, p, n->b);
    else if (n->kind == AND && n->a->sort == BOOLEAN) ok = (p = build(n->b)) && add_condition(out, p, n->a);
    else ok = (p = build(n->a)) && (q = build(n->b)) && add_joined(out, n->kind, p, q);
    release(p);
    release(q);
    if (ok) return out;
    release(out);
    return NULL;
}

/* Of a vector expression; NULL where over limit 8. Kept until the next call. */
Alternatives *alternatives_of(const Node *n)
{
    release(last);
    last = NULL;
    last = build(n);
    return last;
}

static int answer_of(const Alternative *a, const Trace *trace, long row)
{
    const Test *t = a->test;
    int least = YES;
    if (a->steps > row) return NO;
    for (int j = 0; j < a->steps; j++)
        for (int k = 0; k < a->tests[j]; k++, t++) {
            long from = row - a->steps + j;
            int r = edge_answer(t->edge, state_at(t->operand, trace, from), state_at(t->operand, trace, from + 1));
            if (r < least) least = r;
        }
    return least;
}

/* The greatest over the alternatives. */
int best_at(const Alternatives *all, const Trace *trace, long row)
{
    int best = NO;
    for (int i = 0; i < all->count; i++) {
        int r = answer_of(all->list[i], trace, row);
        if (r > best) best = r;
    }
    return best;
}

/* In order up to and including the first yes, or all; 0 at row 0. */
long tries_at(const Alternatives *all, const Trace *trace, long row)
{
    if (row == 0) return 0;
    for (int i = 0; i < all->count; i++)
        if (answer_of(all->list[i], trace, row) == YES) return i + 1;
    return all->count;
}

/* Document 02, [12]: "the first row of the window of the first alternative in order that answers yes"; -1 where none
   does, and at row 0. */
long began_at(const Alternatives *all, const Trace *trace, long row)
{
    for (int i = 0; i < all->count && row > 0; i++)
        if (answer_of(all->list[i], trace, row) == YES) return row - all->list[i]->steps;
    return -1;
}

/* Whether some state answers yes to all literals asked of the name at the row of the window. */
static int some_state(const Alternative *a, int name, int row)
{
    for (int s = 0; s < 8; s++) {
        const Test *t = a->test;
        int all = 1;
        for (int j = 0; j < a->steps; j++)
            for (int k = 0; k < a->tests[j]; k++, t++) {
                if (t->edge >= 81 || t->operand->kind != NAME || t->operand->code != name) continue;
                if (j == row && edge_answer(t->edge / 9 * 9, s, 0) != YES) all = 0;
                if (j + 1 == row && edge_answer(t->edge % 9, 0, s) != YES) all = 0;
            }
        if (all) return 1;
    }
    return 0;
}

int contradictory(const Alternative *a)
{
    for (int name = 0; name < 32; name++)
        for (int row = 0; row <= a->steps; row++)
            if (!some_state(a, name, row)) return 1;
    return 0;
}
