/* Random trees, as their bytes. */
#include "cases.h"

enum { BOOLEAN, VECTOR };

/* An edge's number: mostly of digits. */
int make_edge(void)
{
    return once_in(8) ? 81 + (int)below(2) : once_in(4) ? (int)below(81) : 9 * (int)below(3) + (int)below(3);
}

/* A run of `->` over edges on names, most of which change, in any grouping. */
static void make_run(Buffer *out, long names, long steps)
{
    static const int edges[] = {9 * 1 + 2, 9 * 2 + 1, 81, 9 * 3 + 2, 9 * 1 + 5};
    if (steps > 1) {
        long left = 1 + below(steps - 1);
        make_run(out, names, left);
        make_run(out, names, steps - left);
        add(out, 50);
        return;
    }
    for (int more = 0; !more || once_in(4); more = 1) {
        add(out, (int)below(names));
        add(out, 64 + (once_in(16) ? make_edge() : edges[below(5)]));
        if (more) add(out, 54);
    }
}

/* The bytes of a random tree, operands before operators. */
void make_tree(Buffer *out, long names, int sort, int size)
{
    int a = 1 + (int)below(size - 2);
    if (sort == BOOLEAN && size <= 1) {
        add(out, once_in(4) ? 32 + (int)below(8) : (int)below(names));
    } else if (sort == BOOLEAN && (size == 2 || once_in(8))) {
        make_tree(out, names, BOOLEAN, size - 1);
        add(out, 147);
    } else if (sort == BOOLEAN && size >= 4 && once_in(6)) {
        make_tree(out, names, BOOLEAN, 1);
        make_tree(out, names, BOOLEAN, 1 + (int)below(size - 3));
        make_tree(out, names, BOOLEAN, a);
        add(out, 60);
    } else if (sort == BOOLEAN) {
        make_tree(out, names, BOOLEAN, a);
        make_tree(out, names, BOOLEAN, size - 1 - a);
        add(out, 40 + (int)below(10));
    } else if (size > 4 && once_in(4)) {
        make_run(out, names, once_in(8) ? 6 + below(5) : 2 + below(3));
    } else if (size <= 4 || once_in(8)) {
        make_tree(out, names, BOOLEAN, size < 2 ? 1 : size - 1);
        add(out, 64 + make_edge());
    } else {
        int which = (int)below(9), op = which < 6 ? 50 + which : which == 8 ? 50 : 50 + which;
        make_tree(out, names, op == 57 ? BOOLEAN : VECTOR, a);
        make_tree(out, names, op == 56 ? BOOLEAN : VECTOR, size - 1 - a);
        add(out, op);
    }
}

static void add_many(Buffer *out, int byte, long n) { while (n-- > 0) add(out, byte); }

/* Near a limit: brackets 30 to 34 deep, or 254 to 258 nodes. */
static void make_edge_boolean(Buffer *out, long names)
{
    long n = below(5);
    if (once_in(40)) {
        add(out, (int)below(names));
        add_many(out, 147, 253 + n);
    } else {
        add_many(out, (int)below(names), 32 + n);
        add_many(out, 42 + (int)below(8), 31 + n);
    }
}

/* Near a limit: 63 to 65 alternatives or tests, or 15 to 17 steps, of a row of edges; 2 to 4 joins of three
   alternatives each; one to four conditions on 15 to 17 steps; else an edge on a boolean near a limit. */
void make_edge_tree(Buffer *out, long names, int sort)
{
    static const int joins[] = {55, 54, 50, 53, 50}, first[] = {62, 62, 14, 2, 14};
    long which = below(6), n;
    if (sort == BOOLEAN || which == 5) make_edge_boolean(out, names);
    if (sort == BOOLEAN) return;
    if (which == 5) { add(out, 64 + 14); return; }
    n = first[which] + below(3);
    for (long i = 0; i <= n; i++) {
        add(out, (int)below(names));
        add(out, 64 + 9 * (int)below(3) + (int)below(3));
        if (i > 0) add(out, joins[which]);
    }
    for (long i = below(4); i >= 0 && which == 4; i--) {
        add(out, (int)below(names));
        add(out, 56);
    }
}
