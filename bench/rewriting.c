/* A C twin of rewriting: from a tree to its alternatives in four lists. The nodes are gone through once, and for each
   the steps and tests of its alternatives are counted, which is also the check of limit 8. Then the lists are written,
   each test at its place. It checks form, sorts and names of the tree and limit 8, but not whether a text can
   have so many brackets and bytes. */
#include "measure.h"

enum { THEN = 50, EITHER, WITH_THEN, ANY_ORDER, WITH, OR, WHILE_RIGHT, WHILE_LEFT };
enum { BOOLEAN, VECTOR };

/* A part of the tree ends behind its node. p and q are the nodes of the vectors that it joins, condition is where the
   condition ends. Of each alternative the number of its steps and of its tests. */
typedef struct {
    uint8_t sort;
    uint16_t p, q, condition, count, steps[MAX_ALTERNATIVES], tests[MAX_ALTERNATIVES];
} Node;

static Node nodes[MAX_NODES];
static const uint8_t *tree;

static bool add(Node *n, int steps, int tests)
{
    if (n->count == MAX_ALTERNATIVES || steps > MAX_STEPS || tests > MAX_TESTS) return false;
    n->steps[n->count] = (uint16_t)steps;
    n->tests[n->count++] = (uint16_t)tests;
    return true;
}

/* one for each of p and each of q: one after the other, or side by side */
static bool add_pairs(Node *n, const Node *p, const Node *q, bool chained)
{
    for (int i = 0; i < p->count; i++)
        for (int j = 0; j < q->count; j++) {
            int a = p->steps[i], b = q->steps[j];
            if (!add(n, chained ? a + b : a > b ? a : b, p->tests[i] + q->tests[j])) return false;
        }
    return true;
}

static bool add_all(Node *n, const Node *p, int more)
{
    for (int i = 0; i < p->count; i++)
        if (!add(n, p->steps[i], p->tests[i] + more * p->steps[i])) return false;
    return true;
}

static bool count_joined(Node *n, uint8_t b)
{
    const Node *p = nodes + n->p, *q = nodes + n->q;
    switch (b) {
    case THEN: return add_pairs(n, p, q, true);
    case EITHER: return add_pairs(n, p, q, true) && add_pairs(n, q, p, true);
    case WITH_THEN: return add_pairs(n, p, q, false) && add_pairs(n, p, q, true);
    case ANY_ORDER: return add_pairs(n, p, q, true) && add_pairs(n, p, q, false) && add_pairs(n, q, p, true);
    case WITH: return add_pairs(n, p, q, false);
    case OR: return add_all(n, p, 0) && add_all(n, q, 0);
    default: return add_all(n, p, 1);
    }
}

/* How many operands a byte has, and whether it stands for a node at all. */
static int operands_of(uint8_t b, size_t names)
{
    if (b < 32) return b < names ? 0 : -1;
    if (b < 40) return 0;
    if (b < 58) return 2;
    if (b == 60) return 3;
    return b >= 64 && b <= 147 ? 1 : -1;
}

static bool count_node(size_t at, const uint16_t *operand, int many)
{
    uint8_t b = tree[at];
    Node *n = nodes + at;
    n->count = 0;
    n->sort = b >= THEN && b != 60 && b != 147 ? VECTOR : BOOLEAN;
    for (int i = 0; i < many; i++) {
        bool vector = b >= THEN && b <= OR ? true : b == WHILE_RIGHT ? i == 0 : b == WHILE_LEFT ? i == 1 : false;
        if ((nodes[operand[i]].sort == VECTOR) != vector) return false;
    }
    if (n->sort == BOOLEAN) return true;
    if (b >= 64) {
        n->condition = (uint16_t)at;
        return add(n, 1, 1);
    }
    n->p = operand[b == WHILE_LEFT];
    n->q = operand[1];
    n->condition = (uint16_t)(operand[b == WHILE_RIGHT] + 1);
    return count_joined(n, b);
}

/* The root's place, or -1. */
static int count_nodes(size_t length, size_t names)
{
    uint16_t open[MAX_NODES];
    int top = 0;
    if (length > MAX_NODES) return -1;
    for (size_t at = 0; at < length; at++) {
        int many = operands_of(tree[at], names);
        if (many < 0 || many > top || !count_node(at, open + top - many, many)) return -1;
        top -= many;
        open[top++] = (uint16_t)at;
    }
    return top == 1 && nodes[open[0]].sort == VECTOR ? open[0] : -1;
}

static uint8_t *edge_out;
static uint16_t *operand_out;

static void put_test(uint8_t edge, uint16_t operand)
{
    *edge_out++ = edge;
    *operand_out++ = operand;
}

/* The tests of step s of alternative t of a node. */
static void put_step(const Node *n, int t, int s)
{
    uint8_t b = tree[n - nodes];
    const Node *p = nodes + n->p, *q = nodes + n->q;
    if (b >= 64) {
        put_test((uint8_t)(b - 64), n->condition);
        return;
    }
    if (b >= WHILE_RIGHT) {
        put_step(p, t, s);
        put_test(9 * 2 + 2, n->condition);
        return;
    }
    if (b == OR) {
        if (t < p->count) put_step(p, t, s);
        else put_step(q, t - p->count, s);
        return;
    }
    /* which part of a compact operator the alternative is in: 0 p then q, 1 both, 2 q then p */
    static const int PARTS[5][3] = {{0}, {0, 2}, {1, 0}, {0, 1, 2}, {1}};
    int pairs = p->count * q->count, part = PARTS[b - THEN][t / pairs];
    t %= pairs;
    if (part == 2) {
        const Node *swap = p;
        p = q;
        q = swap;
    }
    int i = t / q->count, j = t % q->count, a = p->steps[i], c = q->steps[j];
    if (part != 1) {
        if (s < a) put_step(p, i, s);
        else put_step(q, j, s - a);
        return;
    }
    if (a >= c || s >= c - a) put_step(p, i, a < c ? s - (c - a) : s);
    if (c >= a || s >= a - c) put_step(q, j, c < a ? s - (a - c) : s);
}

static void put_all(Pattern *to, const Node *n)
{
    if (tree[n - nodes] == OR) {
        put_all(to, nodes + n->p);
        put_all(to, nodes + n->q);
        return;
    }
    for (int t = 0; t < n->count; t++) {
        to->steps[to->alternatives++] = (uint8_t)n->steps[t];
        for (int s = 0; s < n->steps[t]; s++) {
            const uint8_t *from = edge_out;
            put_step(n, t, s);
            to->tests[to->all_steps++] = (uint8_t)(edge_out - from);
        }
    }
}

bool twin_rewrite(Pattern *to, size_t names)
{
    tree = to->tree;
    int root = count_nodes(to->length, names);
    if (root < 0) return false;
    edge_out = to->edges;
    operand_out = to->operands;
    to->alternatives = to->all_steps = 0;
    put_all(to, nodes + root);
    to->all_tests = (size_t)(edge_out - to->edges);
    return true;
}
