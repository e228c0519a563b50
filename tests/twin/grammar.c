/* Names, brackets, counted tokens, grammar and sorts: refusals 18, 12 and 1 to 8, each over the whole text. */
#include "twin.h"
#include <string.h>

static int slot_length(const byte *slot)
{
    int n = 0;
    while (n < 32 && slot[n] != 0) n++;
    return n;
}

static int good_slot(const byte *slot)
{
    int n = slot_length(slot);
    if (n == 0 || !starts_name(slot[0])) return 0;
    for (int i = 0; i < n; i++)
        if (!is_name_byte(slot[i])) return 0;
    for (int i = n; i < 32; i++)
        if (slot[i] != 0) return 0;
    return 1;
}

Refusal check_names(const byte *names, long length)
{
    if (length % 32 != 0 || length < 32 || length > 32 * 32) return (Refusal){18, 0};
    for (long i = 0; i < length / 32; i++) {
        if (!good_slot(names + 32 * i)) return (Refusal){12, i};
        for (long j = 0; j < i; j++)
            if (memcmp(names + 32 * i, names + 32 * j, 32) == 0) return (Refusal){12, i};
    }
    return (Refusal){0, 0};
}

static Refusal check_open(const Token *t, int count)
{
    int open = 0;
    for (int i = 0; i < count; i++) {
        if (t[i].kind == OPEN && ++open > MAX_OPEN) return (Refusal){3, t[i].place};
        if (t[i].kind == CLOSE && open > 0) open--;
    }
    return (Refusal){0, 0};
}

static Refusal check_counted(const Token *t, int count)
{
    int counted = 0;
    for (int i = 0; i < count; i++)
        if (t[i].kind != OPEN && t[i].kind != CLOSE && t[i].kind != COLON && ++counted > MAX_NODES)
            return (Refusal){4, t[i].place};
    return (Refusal){0, 0};
}

/* Where an operand is due: a name, a literal, a bracket, or a prefix. Behind one: an operator of two, a ternary's `?`,
   its `:` where one is awaited inside the bracket, a `)` where no `:` is awaited inside it. */
static Refusal check_grammar(const Token *t, int count, long length)
{
    int awaited[MAX_TEXT + 2] = {0}, open = 0, due = 1;
    for (int i = 0; i < count; i++) {
        Kind k = t[i].kind;
        int fits;
        if (due) {
            fits = k == NAME || k == LITERAL || k == OPEN || level_of(k) == 1;
            if (k == OPEN) awaited[++open] = 0;
            due = k != NAME && k != LITERAL;
        } else if (k == CLOSE) {
            fits = open > 0 && awaited[open] == 0;
            open -= fits;
        } else if (k == COLON) {
            fits = awaited[open] > 0;
            awaited[open]--;
            due = 1;
        } else {
            fits = level_of(k) >= 2;
            awaited[open] += k == ASK;
            due = 1;
        }
        if (!fits) return (Refusal){5, t[i].place};
    }
    if (due || open > 0 || awaited[0] > 0) return (Refusal){5, length};
    return (Refusal){0, 0};
}

/* Each `(` gets as its code how far on its `)` stands. */
void pair_brackets(Token *t, int count)
{
    int open[MAX_TEXT], n = 0;
    for (int i = 0; i < count; i++) {
        if (t[i].kind == OPEN) open[n++] = i;
        if (t[i].kind == CLOSE && n > 0) { n--; t[open[n]].code = i - open[n]; }
    }
}

/* The place of the weakest operator outside all brackets, where the tokens split: the last of its level, since binary
   ones group from the left, but the first `?`, since the ternary groups from the right. -1: a prefix or an operand. */
static int split_at(const Token *t, int count)
{
    int best = -1, level = 1;
    for (int i = 0, due = 1; i < count; i++) {
        Kind k = t[i].kind;
        int l = level_of(k);
        if (l == 6) return i;
        if (!due && l >= 2 && l >= level) { best = i; level = l; }
        if (k == OPEN) i += t[i].code;
        due = l != 0;
    }
    return best;
}

/* Of the `:`s behind the `?` at i, outside all brackets, its own. */
static int colon_of(const Token *t, int i)
{
    for (int asked = 0;; i++) {
        if (t[i].kind == OPEN) i += t[i].code;
        if (t[i].kind == ASK) asked++;
        if (t[i].kind == COLON && --asked == 0) return i;
    }
}

/* The tree of tokens that are grammatical and have their brackets paired. */
Node *tree_of(const Token *t, int count)
{
    int i = split_at(t, count);
    if (i >= 0 && t[i].kind == ASK) {
        int j = colon_of(t, i);
        Node *c = tree_of(t, i), *a = tree_of(t + i + 1, j - i - 1);
        return new_node(ASK, t[i].place, 0, c, a, tree_of(t + j + 1, count - j - 1));
    }
    if (i >= 0) {
        Node *a = tree_of(t, i);
        return new_node(t[i].kind, t[i].place, 0, a, tree_of(t + i + 1, count - i - 1), NULL);
    }
    if (level_of(t[0].kind) == 1)
        return new_node(t[0].kind, t[0].place, t[0].code, tree_of(t + 1, count - 1), NULL, NULL);
    if (t[0].kind == OPEN) return tree_of(t + 1, count - 2);
    return new_node(t[0].kind, t[0].place, t[0].code, NULL, NULL, NULL);
}

/* Gives each node its sort; whether one is faulty, and where. */
int sort_fault(Node *n, int *place)
{
    if (n->a && sort_fault(n->a, place)) return 1;
    if (n->b && sort_fault(n->b, place)) return 1;
    if (n->c && sort_fault(n->c, place)) return 1;
    int a = n->a ? n->a->sort : BOOLEAN, b = n->b ? n->b->sort : BOOLEAN, c = n->c ? n->c->sort : BOOLEAN, ok;
    switch (level_of(n->kind)) {
    case 4: ok = a == VECTOR && b == VECTOR; n->sort = VECTOR; break;
    case 5: ok = a == b; n->sort = a; break;
    case 3: ok = 1; n->sort = a == VECTOR || b == VECTOR ? VECTOR : BOOLEAN; break;
    default: ok = a == BOOLEAN && b == BOOLEAN && c == BOOLEAN; n->sort = n->kind == EDGE ? VECTOR : BOOLEAN;
    }
    *place = n->place;
    return !ok;
}

/* The number of each name, or 6. */
static Refusal find_names(const byte *names, long slots, const byte *text, Token *t, int count)
{
    for (int i = 0; i < count; i++) {
        if (t[i].kind != NAME) continue;
        long k = 0;
        while (k < slots && (slot_length(names + 32 * k) != t[i].length
                             || memcmp(names + 32 * k, text + t[i].place, (size_t)t[i].length) != 0)) k++;
        if (k == slots) return (Refusal){6, t[i].place};
        t[i].code = (int)k;
    }
    return (Refusal){0, 0};
}

Refusal read_text(const byte *names, long names_length, const byte *text, long length, int sort, Node **tree)
{
    static Token tokens[MAX_TEXT + 1];
    int count, place;
    Refusal r = check_names(names, names_length);
    if (r.number) return r;
    if (length > MAX_TEXT) return (Refusal){1, MAX_TEXT};
    if ((r = take_tokens(text, length, tokens, &count)).number) return r;
    if ((r = check_open(tokens, count)).number) return r;
    if ((r = check_counted(tokens, count)).number) return r;
    if ((r = check_grammar(tokens, count, length)).number) return r;
    if ((r = find_names(names, names_length / 32, text, tokens, count)).number) return r;
    pair_brackets(tokens, count);
    *tree = tree_of(tokens, count);
    if (sort_fault(*tree, &place)) return (Refusal){7, place};
    if ((*tree)->sort != sort) return (Refusal){7, length};
    if (sort == VECTOR && alternatives_of(meant(*tree)) == NULL) return (Refusal){8, 0};
    return (Refusal){0, 0};
}
