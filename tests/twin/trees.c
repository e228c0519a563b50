/* A tree as bytes and as text, and refusal 10. A bracket is needed where the text without it reads as another tree:
   that is tried, bracket by bracket, and no rule of levels is used. */
#include "twin.h"
#include <stdlib.h>
#include <string.h>

static Node pool[4 * MAX_FILLED];
static int used;

Node *new_node(Kind kind, int place, int code, Node *a, Node *b, Node *c)
{
    pool[used] = (Node){kind, place, code, BOOLEAN, used, 0, a, b, c};
    return &pool[used++];
}

void free_nodes(void) { used = 0; }

static int size_of(const Node *n) { return n ? 1 + size_of(n->a) + size_of(n->b) + size_of(n->c) : 0; }

static int byte_of(const Node *n)
{
    int vectors = n->b ? (n->a->sort == VECTOR) + 2 * (n->b->sort == VECTOR) : 0;
    switch (n->kind) {
    case NAME: return n->code;
    case LITERAL: return 32 + n->code;
    case EDGE: return 64 + n->code;
    case NOT: return 147;
    case AND: return vectors == 0 ? 40 : vectors == 1 ? 56 : vectors == 2 ? 57 : 54;
    case OR: return vectors == 0 ? 41 : 55;
    case THEN: case EITHER: case WITH_THEN: case ANY_ORDER: return 50 + (int)(n->kind - THEN);
    case ASK: return 60;
    default: return 42 + (int)(n->kind - XOR);
    }
}

/* The bytes of a tree whose nodes have sorts, from `at` on; where they end. */
int tree_bytes(const Node *n, byte *out, int at)
{
    if (n->a) at = tree_bytes(n->a, out, at);
    if (n->b) at = tree_bytes(n->b, out, at);
    if (n->c) at = tree_bytes(n->c, out, at);
    out[at] = (byte)byte_of(n);
    return at + 1;
}

/* A node of a byte, its operands still to come; 0 where no node has the byte. */
static int node_from(int b, int names, Kind *kind, int *code, int *operands)
{
    *code = 0;
    *operands = 2;
    if (b < 32) { *kind = NAME; *code = b; *operands = 0; return b < names; }
    if (b < 40) { *kind = LITERAL; *code = b - 32; *operands = 0; return 1; }
    if (b == 60) { *kind = ASK; *operands = 3; return 1; }
    if (b == 147) { *kind = NOT; *operands = 1; return 1; }
    if (b >= 64 && b < 147) { *kind = EDGE; *code = b - 64; *operands = 1; return 1; }
    if (b == 40 || b == 54 || b == 56 || b == 57) *kind = AND;
    else if (b == 41 || b == 55) *kind = OR;
    else if (b >= 42 && b <= 49) *kind = (Kind)(XOR + (b - 42));
    else if (b >= 50 && b <= 53) *kind = (Kind)(THEN + (b - 50));
    else return 0;
    return 1;
}

/* The part that ends with each byte; NULL for a byte that no node has, or with operands missing or of another sort.
   No part goes on over such a byte. How many parts are left side by side. */
int parts_of(const byte *bytes, long length, int names, Node **parts)
{
    Node **stack = malloc(sizeof(Node *) * (size_t)(length + 1)), *part[3];
    int height = 0, code, operands, place;
    for (long i = 0; i < length; i++) {
        Kind kind;
        parts[i] = NULL;
        int ok = node_from(bytes[i], names, &kind, &code, &operands) && height >= operands;
        for (int k = 0; k < 3; k++) part[k] = ok && k < operands ? stack[height - operands + k] : NULL;
        Node *n = ok ? new_node(kind, 0, code, part[0], part[1], part[2]) : NULL;
        ok = ok && !sort_fault(n, &place) && byte_of(n) == bytes[i];
        height = ok ? height - operands : 0;
        if (ok) parts[i] = stack[height++] = n;
    }
    free(stack);
    return height;
}

/* The tree of bytes, or NULL. */
static Node *tree_from(const byte *bytes, long length, int names)
{
    Node *parts[MAX_NODES], *n = NULL;
    if (length < 1 || length > MAX_NODES || parts_of(bytes, length, names, parts) != 1) return NULL;
    n = parts[length - 1];
    return n && size_of(n) == length ? n : NULL;
}

typedef struct { Token t[2048]; int count; } Line;

static void put(Line *line, Kind kind, int code) { line->t[line->count++] = (Token){kind, 0, 0, code}; }

static void put_tree(Line *line, const Node *n);

static void put_operand(Line *line, const Node *n)
{
    if (n->a == NULL) { put_tree(line, n); return; }
    put(line, OPEN, 0);
    put_tree(line, n);
    put(line, CLOSE, 0);
}

/* The tokens of a tree, each operand that is no name or literal in brackets. */
static void put_tree(Line *line, const Node *n)
{
    if (n->b) put_operand(line, n->a);
    put(line, n->kind, n->code);
    if (n->a) put_operand(line, n->b ? n->b : n->a);
    if (n->c) { put(line, COLON, 0); put_operand(line, n->c); }
}

static int same(const Node *m, const Node *n)
{
    if (m == NULL || n == NULL) return m == n;
    return m->kind == n->kind && m->code == n->code && same(m->a, n->a) && same(m->b, n->b) && same(m->c, n->c);
}

/* The line without the bracket at i and its partner. */
static void without(const Line *line, int i, Line *out)
{
    out->count = 0;
    for (int k = 0; k < line->count; k++)
        if (k != i && k != i + line->t[i].code) out->t[out->count++] = line->t[k];
    pair_brackets(out->t, out->count);
}

static void drop_brackets(Line *line, const Node *tree)
{
    static Line shorter;
    pair_brackets(line->t, line->count);
    for (int i = 0; i < line->count;) {
        if (line->t[i].kind != OPEN) { i++; continue; }
        without(line, i, &shorter);
        int mark = used;
        if (same(tree_of(shorter.t, shorter.count), tree)) *line = shorter; else i++;
        used = mark;
    }
}

static int spell(const Token *t, const byte *names, char *out)
{
    static const char *const signs[] = {"", "", "", "!", "^", "~^", "==", "!=", ">", "<", ">=", "<=", "&", "->", "<->",
                                        "&>", "<&>", "|", "?", ":", "(", ")"};
    static const char states[] = "01XHLWZU", halves[] = "?01XHLWZU";
    if (t->kind == NAME) return sprintf(out, "%.32s", (const char *)names + 32 * t->code);
    if (t->kind == LITERAL) return sprintf(out, t->code < 2 ? "%c" : "'b%c", states[t->code]);
    if (t->kind != EDGE) return sprintf(out, "%s", signs[t->kind]);
    if (t->code >= 81) return sprintf(out, t->code == 81 ? "?!" : "?-");
    int f = t->code / 9, g = t->code % 9;
    return sprintf(out, f < 3 && g < 3 ? "%c%c" : "'b%c'b%c", halves[f], halves[g]);
}

/* The text of a tree; its length, and how deep its brackets nest. */
long text_of(const Node *tree, const byte *names, char *out, int *deepest)
{
    static Line line;
    long size = 0;
    int open = 0;
    line.count = 0;
    put_tree(&line, tree);
    drop_brackets(&line, tree);
    *deepest = 0;
    for (int i = 0; i < line.count; i++) {
        open += (line.t[i].kind == OPEN) - (line.t[i].kind == CLOSE);
        if (open > *deepest) *deepest = open;
        if (i > 0) out[size++] = ' ';
        size += spell(&line.t[i], names, out + size);
    }
    return size;
}

/* Whether some text gives the expression by itself: limits 3, 4 and 8. Needed brackets nest no deeper than there are
   nodes. */
int given_by_text(Node *n)
{
    static char text[40000];
    static const byte blank[32 * 32];
    int deepest = 0;
    if (n->given == 0) {
        int mark = used;
        n->given = size_of(n) <= MAX_NODES && (n->sort == BOOLEAN || alternatives_of(meant(n))) ? 1 : -1;
        if (n->given == 1 && size_of(n) > MAX_OPEN) text_of(n, blank, text, &deepest);
        if (deepest > MAX_OPEN) n->given = -1;
        used = mark;
    }
    return n->given == 1;
}

/* 10: a tree that no text gives. */
Refusal check_tree(const byte *bytes, long length, int names, int sort, Node **tree)
{
    *tree = tree_from(bytes, length, names);
    if (*tree == NULL || (*tree)->sort != sort || !given_by_text(*tree)) return (Refusal){10, 0};
    return (Refusal){0, 0};
}

Refusal write_text(const byte *names, long names_length, const byte *bytes, long length, int sort, long room,
                   char *out, long *size)
{
    static char text[40000];
    Node *tree;
    int deepest;
    Refusal r = check_names(names, names_length);
    if (r.number) return r;
    int rule = steady_pins;
    steady_pins = 0; /* what was read is written, and the limits are asked without added tests */
    r = check_tree(bytes, length, (int)(names_length / 32), sort, &tree);
    steady_pins = rule;
    if (r.number) return r;
    *size = text_of(tree, names, text, &deepest);
    if (*size > MAX_TEXT) return (Refusal){1, MAX_TEXT};
    if (*size > room) return (Refusal){9, *size};
    memcpy(out, text, (size_t)*size);
    return (Refusal){0, 0};
}
