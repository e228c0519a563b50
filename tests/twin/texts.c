/* Random texts of expressions, and names. */
#include "cases.h"
#include <stdio.h>
#include <string.h>

enum { BOOLEAN, VECTOR };

/* Names that texts use: A to Z and a few longer ones; slot i has name i, one list in twenty is bad. */
static void name_text(long i, char *out)
{
    static const char *const odd[] = {"_", "x1", "abcdefghijklmnopqrstuvwxyz_01234", "Ab_9", "a", "b"};
    if (i < 26) sprintf(out, "%c", (int)('A' + i)); else strcpy(out, odd[i - 26]);
}

long make_names(Buffer *out)
{
    long n = once_in(4) ? 1 + below(32) : 1 + below(4);
    clear(out);
    for (long i = 0; i < n; i++) {
        char name[40] = {0};
        name_text(i, name);
        for (int k = 0; k < 32; k++) add(out, name[k]);
    }
    if (once_in(40)) damage(out, "AB_0\x01");
    else if (once_in(40)) out->at[below(out->length)] = (uint8_t)"AB0_ "[below(5)];
    else if (once_in(40)) memmove(out->at + 32 * below(n), out->at + 32 * below(n), 32);
    else if (once_in(80)) out->length = 32 * below(2);
    else if (once_in(80)) while (out->length < 33 * 32) add(out, 'A');
    return n;
}

long make_long_names(Buffer *out)
{
    clear(out);
    for (int i = 0; i < 8; i++)
        for (int k = 0; k < 32; k++) add(out, 'a' + i);
    return 8;
}

static void blank(Buffer *out, int needed)
{
    if (needed || once_in(2)) add(out, " \t\n\r  "[below(6)]);
    while (once_in(6)) add(out, ' ');
}

static void put(Buffer *out, const char *token)
{
    blank(out, 1);
    add_text(out, token);
    blank(out, 0);
}

static void put_leaf(Buffer *out, long names)
{
    static const char *const literals[] = {"0",   "1",   "'b0", "'b1", "'bX", "'bx",
                                           "'bH", "'bh", "'bL", "'bW", "'bz", "'bU"};
    char name[40];
    name_text(once_in(200) ? below(32) : below(names), name);
    put(out, once_in(4) ? literals[below(12)] : name);
}

static void put_edge(Buffer *out)
{
    static const char halves[] = "?01XHLWZUxhlwzu";
    char edge[8];
    if (once_in(8)) strcpy(edge, once_in(2) ? "?!" : "?-");
    else if (once_in(4)) sprintf(edge, "'b%c'b%c", halves[below(15)], halves[below(15)]);
    else sprintf(edge, "%c%c", "?01"[below(3)], "?01"[below(3)]);
    put(out, edge);
}

static void put_part(Buffer *out, long names, int sort, int size, int level);

static void put_boolean(Buffer *out, long names, int size, int level)
{
    static const char *const two[] = {"^", "~^", "==", "!=", ">", "<", ">=", "<=", "&", "&&", "|", "||"};
    if (size <= 1) { put_leaf(out, names); return; }
    if (size == 2 || once_in(8)) {
        put(out, once_in(2) ? "!" : "~");
        put_part(out, names, BOOLEAN, size - 1, 1);
    } else if (size >= 4 && once_in(5) && level >= 6) {
        int c = 1 + (int)below(size - 3), a = 1 + (int)below(size - 2 - c);
        put_part(out, names, BOOLEAN, c, 5);
        put(out, "?");
        put_part(out, names, BOOLEAN, a, 6);
        put(out, ":");
        put_part(out, names, BOOLEAN, size - 1 - c - a, 6);
    } else {
        int which = level >= 5 ? (int)below(12) : level >= 3 ? (int)below(10) : (int)below(8);
        int own = which < 8 ? 2 : which < 10 ? 3 : 5, a = 1 + (int)below(size - 2);
        put_part(out, names, BOOLEAN, a, own);
        put(out, two[which]);
        put_part(out, names, BOOLEAN, size - 1 - a, own - 1);
    }
}

/* A run of `->` over edges on names, most of which change. */
static void put_run(Buffer *out, long names)
{
    static const char *const edges[] = {"01", "10", "?!", "'bX'b1", "'b0'bL"};
    char name[40];
    for (long left = once_in(8) ? 7 + below(4) : 1 + below(3), more = 0; left >= 0 || more; left--) {
        if (once_in(8)) put_edge(out); else put(out, edges[below(5)]);
        name_text(below(names), name);
        put(out, name);
        if ((more = once_in(4))) left++;
        if (more) put(out, "&"); else if (left > 0) put(out, "->");
    }
}

static void put_vector(Buffer *out, long names, int size, int level)
{
    static const char *const two[] = {"&", "&&", "->", "<->", "&>", "<&>", "|", "||"};
    if (level >= 4 && once_in(4)) { put_run(out, names); return; }
    if (size <= 4 || once_in(8) || level < 3) {
        put_edge(out);
        put_part(out, names, BOOLEAN, size - 1, 1);
        return;
    }
    int which = level >= 5 ? (int)below(8) : level >= 4 ? (int)below(6) : (int)below(2);
    int own = which < 2 ? 3 : which < 6 ? 4 : 5, a = 2 + (int)below(size - 4), mixed = which < 2 ? (int)below(4) : 0;
    put_part(out, names, mixed == 1 ? BOOLEAN : VECTOR, a, own);
    put(out, two[which]);
    put_part(out, names, mixed == 2 ? BOOLEAN : VECTOR, size - 1 - a, own - 1);
}

/* About `size` nodes of a sort, at a level that needs no brackets, or in brackets; a few brackets are left out. */
static void put_part(Buffer *out, long names, int sort, int size, int level)
{
    int bracket = (size > 2 && level < 2 + (int)below(6)) || once_in(12), inner = bracket ? 6 : level;
    int silent = bracket && once_in(150);
    if (bracket && !silent) put(out, "(");
    if (sort == BOOLEAN && level < 2 && !bracket && size > 2) inner = 6;
    if (sort == BOOLEAN) put_boolean(out, names, size, inner); else put_vector(out, names, size, inner);
    if (bracket && !silent) put(out, ")");
}

void make_text(Buffer *out, long names, int sort, int size) { put_part(out, names, sort, size, 6); }

/* Tokens and bytes in any order. */
void make_soup(Buffer *out, long names)
{
    static const char *const tokens[] = {
        "A", "B", "0", "1", "?", "(", ")", ":", "!", "~", "&", "&&", "|", "->", "<->", "&>", "<&>", "==", "!=", "<",
        ">", "<=", ">=", "^", "~^", "01", "?0", "??", "?!", "?-", "'b0", "'b?", "'bX'b1", "'bX'b?", "-", "=", "'",
        "'b", "A1", "0A", "_", "*", "10", "1?",
    };
    for (long n = below(12); n >= 0; n--) {
        if (once_in(3)) put_leaf(out, names);
        add_text(out, tokens[below(44)]);
        if (once_in(2)) add(out, ' ');
    }
}

static void repeat(Buffer *out, const char *text, long n) { while (n-- > 0) add_text(out, text); }

/* Near a limit: brackets, tokens, length, alternatives, steps, tests, bytes of a name. */
void make_edge_text(Buffer *out)
{
    long more = below(4);
    switch (below(9)) {
    case 0: repeat(out, "(", 30 + more); add_text(out, "A"); repeat(out, ")", 30 + more); break;
    case 1: add_text(out, "A"); repeat(out, " & A", 125 + more); break;
    case 2: repeat(out, "!", 253 + more); add_text(out, " A"); break;
    case 3: add_text(out, "01 A"); repeat(out, " ", 4090 + more); break;
    case 4: add_text(out, "01 A"); repeat(out, " | 10 A", 61 + more); break;
    case 5: add_text(out, "01 A"); repeat(out, " -> 10 A", 13 + more); break;
    case 6: add_text(out, "01 A"); repeat(out, " & 10 A", 61 + more); break;
    case 7: repeat(out, "a", 31 + more % 3); break;
    default:
        add_text(out, "( 01 A");
        repeat(out, " -> ?0 A", 12 + more);
        repeat(out, ") & A", 1);
        repeat(out, " & A", below(5));
    }
    if (once_in(6)) damage(out, "A01?()! ");
}
