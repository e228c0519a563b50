/* Document 02, [2], steady pins: the tree with its runs filled. Only the nodes of vector expressions are new, so an
   added test's operand is a name of the written tree. */
#include "twin.h"

int steady_pins;

static Node *like(const Node *n, Node *a, Node *b)
{
    Node *m = new_node(n->kind, n->place, n->code, a, b, n->c);
    m->sort = VECTOR;
    return m;
}

/* Edges, or edges joined by `&`. */
static int is_step(const Node *n)
{
    if (n->kind == AND) return n->sort == VECTOR && is_step(n->a) && is_step(n->b);
    return n->kind == EDGE;
}

/* A step has an edge of two different states, or `?!`. */
static int moves(const Node *n)
{
    if (n->kind == AND) return moves(n->a) || moves(n->b);
    int from = n->code / 9, to = n->code % 9;
    return n->code == 81 || (n->code < 81 && from && to && from != to);
}

/* The operand of a step's first edge on a name alone, or NULL. */
static Node *operand_of(const Node *n, int name)
{
    if (n->kind == EDGE) return n->a->kind == NAME && n->a->code == name ? n->a : NULL;
    Node *left = operand_of(n->a, name);
    return left ? left : operand_of(n->b, name);
}

/* In a run of so many steps the operand for step i: the nearest before it, else the first behind it. */
static Node *held_at(Node **run, int steps, int i, int name)
{
    Node *found = NULL;
    for (int k = i - 1; k >= 0 && !found; k--) found = operand_of(run[k], name);
    for (int k = i + 1; k < steps && !found; k++) found = operand_of(run[k], name);
    return found;
}

/* `?-` for each name of the run at the steps with no edge on it alone, if every step changes something. */
static void fill_run(Node **run, int steps, Node **out)
{
    int changing = 1;
    for (int i = 0; i < steps; i++) changing = changing && moves(run[i]);
    for (int i = 0; i < steps; i++) {
        out[i] = run[i];
        for (int name = 0; changing && name < 32; name++) {
            Node *held = operand_of(run[i], name) ? NULL : held_at(run, steps, i, name);
            if (!held) continue;
            Node edge = {.kind = EDGE, .code = 82}, with = {.kind = AND};
            out[i] = like(&with, out[i], like(&edge, held, NULL));
        }
    }
}

static void take_chain(Node *n, Node **operands, int *count)
{
    if (n->kind != THEN) operands[(*count)++] = n;
    else {
        take_chain(n->a, operands, count);
        take_chain(n->b, operands, count);
    }
}

/* The chain again, grouped as it was. */
static Node *put_chain(const Node *n, Node ***operands)
{
    if (n->kind != THEN) return *(*operands)++;
    Node *a = put_chain(n->a, operands);
    return like(n, a, put_chain(n->b, operands));
}

static Node *fill_chain(Node *n)
{
    Node *operands[MAX_NODES], *now[MAX_NODES], **at = now;
    int count = 0, steps;
    take_chain(n, operands, &count);
    for (int i = 0; i < count; i += steps) {
        for (steps = 0; i + steps < count && is_step(operands[i + steps]);) steps++;
        fill_run(operands + i, steps, now + i);
        if (steps == 0) now[i] = filled(operands[i]), steps = 1;
    }
    return put_chain(n, &at);
}

Node *filled(Node *n)
{
    if (n->sort == BOOLEAN || n->kind == EDGE) return n;
    if (n->kind == THEN) return fill_chain(n);
    Node *a = filled(n->a);
    return like(n, a, filled(n->b));
}

Node *meant(Node *n) { return steady_pins ? filled(n) : n; }
