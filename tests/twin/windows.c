/* Chapters "States and values" and "What a pattern says", as they stand: values by recursion, answers on windows. What
   a part answers on a window is kept while the rows near it are asked, so that long traces end. */
#include "twin.h"

/* states: 0 1 X H L W Z U */
enum { X = 2, H, L, W, Z, U };

int reduce(int s) { return s == H ? 1 : s == L ? 0 : s < 2 ? s : X; }

/* With 0 < X < 1. */
static int rank(int v) { return v == 0 ? 0 : v == X ? 1 : 2; }
static int and_of(int a, int b) { return rank(a) < rank(b) ? a : b; }
static int or_of(int a, int b) { return rank(a) > rank(b) ? a : b; }
static int not_of(int a) { return a == X ? X : 1 - a; }
static int xor_of(int a, int b) { return a == X || b == X ? X : a != b; }

/* Table 5-9: the answers for ==, !=, >, <. */
static const char *relation_row(int a, int b)
{
    if (a == U) return "XXXX";
    if (a == X || a == W || a == Z) return a == b ? "10XX" : b == U ? "XXXX" : "01XX";
    if (a == b) return "1000";
    if (reduce(b) == X) return reduce(a) == 1 ? "01X0" : "010X";
    if (reduce(a) == reduce(b)) return "01XX";
    return reduce(a) == 1 ? "0110" : "0101";
}

static int relation(int which, int a, int b)
{
    char r = relation_row(a, b)[which];
    return r == 'X' ? X : r - '0';
}

static int operated(Kind kind, int a, int b)
{
    int ra = reduce(a), rb = reduce(b);
    switch (kind) {
    case AND: return and_of(ra, rb);
    case OR: return or_of(ra, rb);
    case XOR: return xor_of(ra, rb);
    case XNOR: return not_of(xor_of(ra, rb));
    case EQ: return relation(0, a, b);
    case NE: return relation(1, a, b);
    case GT: return relation(2, a, b);
    case LT: return relation(3, a, b);
    case GE: return or_of(relation(2, a, b), relation(0, a, b));
    default: return or_of(relation(3, a, b), relation(0, a, b));
    }
}

/* For a name the recorded state, else its value. */
int state_at(const Node *n, const Trace *t, long row)
{
    return n->kind == NAME ? t->states[row * t->names + n->code] : value_at(n, t, row);
}

/* By the rule of equal branches a ternary of an unknown choice has its branches' value where both have the same. */
int equal_branches;

int value_at(const Node *n, const Trace *t, long row)
{
    if (n->kind == NAME) return reduce(state_at(n, t, row));
    if (n->kind == LITERAL) return n->code;
    if (n->kind == NOT) return not_of(reduce(value_at(n->a, t, row)));
    if (n->kind == ASK) {
        int c = reduce(value_at(n->a, t, row));
        if (c != X) return value_at(c == 1 ? n->b : n->c, t, row);
        int b = value_at(n->b, t, row);
        return equal_branches && b == value_at(n->c, t, row) ? b : X;
    }
    return operated(n->kind, state_at(n->a, t, row), state_at(n->b, t, row));
}

/* A half (? 0 1 X H L W Z U) asked of a state. */
static int asked(int half, int state)
{
    if (half == 0) return YES;
    if (half <= 2) return reduce(state) == half - 1 ? YES : reduce(state) == X ? UNKNOWN : NO;
    return state == half - 1 ? YES : NO;
}

static int lesser(int a, int b) { return a < b ? a : b; }
static int greater(int a, int b) { return a > b ? a : b; }

int edge_answer(int edge, int from, int to)
{
    if (edge == 81) return from != to ? YES : NO;
    if (edge == 82) return from == to ? YES : NO;
    return lesser(asked(edge / 9, from), asked(edge % 9, to));
}

static int followed(const Node *p, const Node *q, const Trace *t, long a, long b)
{
    int best = NO;
    for (long m = a + 1; m < b && best < YES; m++)
        best = greater(best, lesser(answer_on(p, t, a, m), answer_on(q, t, m, b)));
    return best;
}

/* Both end at b, the longer starts at a, the shorter at a or later. */
static int together(const Node *p, const Node *q, const Trace *t, long a, long b)
{
    int best = NO, p_long = answer_on(p, t, a, b), q_long = answer_on(q, t, a, b);
    for (long m = a; m <= b && best < YES; m++) {
        if (p_long > best) best = greater(best, lesser(p_long, answer_on(q, t, m, b)));
        if (q_long > best) best = greater(best, lesser(q_long, answer_on(p, t, m, b)));
    }
    return best;
}

static int held(const Node *p, const Node *c, const Trace *t, long a, long b)
{
    int least = answer_on(p, t, a, b);
    for (long m = a; m <= b && least > NO; m++) {
        int v = reduce(value_at(c, t, m));
        least = lesser(least, v == 1 ? YES : v == X ? UNKNOWN : NO);
    }
    return least;
}

static int window(const Node *n, const Trace *t, long a, long b)
{
    const Node *p = n->a, *q = n->b;
    switch (n->kind) {
    case EDGE: return b == a + 1 ? edge_answer(n->code, state_at(p, t, a), state_at(p, t, b)) : NO;
    case THEN: return followed(p, q, t, a, b);
    case OR: return greater(answer_on(p, t, a, b), answer_on(q, t, a, b));
    case EITHER: return greater(followed(p, q, t, a, b), followed(q, p, t, a, b));
    case WITH_THEN: return greater(together(p, q, t, a, b), followed(p, q, t, a, b));
    case ANY_ORDER:
        return greater(greater(followed(p, q, t, a, b), together(p, q, t, a, b)), followed(q, p, t, a, b));
    default:
        if (q->sort == BOOLEAN) return held(p, q, t, a, b);
        if (p->sort == BOOLEAN) return held(q, p, t, a, b);
        return together(p, q, t, a, b);
    }
}

/* What was found for a node on the window of a length that ends at a row. */
enum { KEPT = 64 };
static struct { uint64_t when; int answer; } kept[MAX_FILLED][KEPT][KEPT];
static uint64_t now = 1;

void forget_windows(void) { now += 1 << 20; }

int answer_on(const Node *n, const Trace *t, long a, long b)
{
    uint64_t when = now + (uint64_t)b;
    if (b <= a) return NO;
    if (b - a >= KEPT) return window(n, t, a, b);
    if (kept[n->id][b % KEPT][b - a].when != when) {
        int answer = window(n, t, a, b);
        kept[n->id][b % KEPT][b - a].when = when;
        kept[n->id][b % KEPT][b - a].answer = answer;
    }
    return kept[n->id][b % KEPT][b - a].answer;
}

/* The greatest over the windows that end at the row, of at most so many events: a pattern within limit 8 answers no on
   windows of more than 16. */
int row_answer(const Node *n, const Trace *t, long row, long longest)
{
    int best = NO;
    for (long a = row; a >= 0 && a >= row - longest && best < YES; a--)
        best = greater(best, answer_on(n, t, a, row));
    return best;
}
