/* The pattern of a call over rows: a tree, or alternatives handed in as lists (steps of each alternative, tests of
   each step, and for each test its edge and where its operand ends in the tree); refusal 10, the answer at a row, and
   the time where its match began. */
#include "twin.h"
#include <stdlib.h>

int refused(Refusal r)
{
    if (r.number) say_refused(r.number, (unsigned long)r.place);
    return r.number;
}

Pattern take_pattern(int listed)
{
    Pattern p = {.listed = listed, .tree = take_bytes()};
    for (int k = 0; listed && k < 4; k++) p.lists[k] = take_bytes();
    return p;
}

/* A test's operand is a boolean expression that ends there and that some text gives by itself. */
static int take_test(const Pattern *p, Node **parts, long i, Test *out)
{
    if (i >= p->lists[2].length || i >= p->lists[3].length / 2) return 0;
    long end = p->lists[3].at[2 * i] + 256 * p->lists[3].at[2 * i + 1];
    out->edge = p->lists[2].at[i];
    out->operand = end >= 1 && end <= p->tree.length ? parts[end - 1] : NULL;
    return out->edge <= 82 && out->operand && out->operand->sort == BOOLEAN && given_by_text(out->operand);
}

/* The alternative of so many steps, from a step and a test on. */
static int take_alternative(const Pattern *p, Node **parts, int steps, long *step, long *test, Alternative *a)
{
    a->total = 0;
    a->steps = steps;
    if (steps < 1 || steps > MAX_STEPS || *step + steps > p->lists[1].length) return 0;
    for (int j = 0; j < steps; j++) {
        a->tests[j] = p->lists[1].at[(*step)++];
        if (a->total + a->tests[j] > MAX_TESTS) return 0;
        for (int k = 0; k < a->tests[j]; k++)
            if (!take_test(p, parts, (*test)++, &a->test[a->total++])) return 0;
    }
    return 1;
}

/* The alternatives that the lists are, one or more; NULL where they are none, or over limit 8. */
static const Alternatives *take_alternatives(const Pattern *p, Node **parts)
{
    static Alternative room[MAX_ALTS];
    static Alternatives all;
    long step = 0, test = 0;
    all.count = (int)p->lists[0].length;
    if (p->lists[0].length < 1 || p->lists[0].length > MAX_ALTS) return NULL;
    for (int i = 0; i < all.count; i++) {
        all.list[i] = &room[i];
        if (!take_alternative(p, parts, p->lists[0].at[i], &step, &test, &room[i])) return NULL;
    }
    if (step != p->lists[1].length || test != p->lists[2].length || test != p->lists[3].length / 2) return NULL;
    return &all;
}

static int longest_of(const Alternatives *all)
{
    int k = 0;
    for (int i = 0; i < all->count; i++)
        if (all->list[i]->steps > k) k = all->list[i]->steps;
    return k;
}

/* 10 */
Refusal check_pattern(Pattern *p, long names, int sort)
{
    Refusal r = {0, 0};
    p->all = NULL;
    if (p->listed) {
        Node **parts = malloc(sizeof(Node *) * (size_t)(p->tree.length + 1));
        parts_of(p->tree.at, p->tree.length, (int)names, parts);
        p->all = take_alternatives(p, parts);
        free(parts);
        if (p->all == NULL) r = (Refusal){10, 0};
    } else {
        r = check_tree(p->tree.at, p->tree.length, (int)names, sort, &p->node);
        if (!r.number && sort == VECTOR) p->all = alternatives_of(p->meant = meant(p->node));
    }
    p->longest = p->all ? longest_of(p->all) : 0;
    return r;
}

/* document 01's number of an answer */
int number_of(int answer) { return answer == YES ? 1 : answer == UNKNOWN ? 2 : 0; }

int number_at(const Pattern *p, const Trace *t, long row)
{
    if (row == 0) return 3;
    return number_of(p->listed ? best_at(p->all, t, row) : row_answer(p->meant, t, row, MAX_STEPS));
}

/* Document 02, [12]: the time where the match began. "No time is given with no, unknown or row 0"; then it is 0. */
uint64_t time_at(const Pattern *p, const Trace *t, long row, int *given)
{
    long first = began_at(p->all, t, row);
    *given = first >= 0;
    return *given ? t->times[first] : 0;
}
