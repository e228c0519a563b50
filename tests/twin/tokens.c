/* Chapter "Text": bytes into tokens, the longest first; refusal 2; how many bytes a refusal is of. */
#include "twin.h"
#include <string.h>

static int is_letter(int b) { return (b >= 'a' && b <= 'z') || (b >= 'A' && b <= 'Z'); }
static int is_digit(int b) { return b >= '0' && b <= '9'; }
int starts_name(int b) { return is_letter(b) || b == '_'; }
int is_name_byte(int b) { return starts_name(b) || is_digit(b); }
static int is_blank(int b) { return b == ' ' || b == '\t' || b == '\n' || b == '\r'; }
static int is_plain(int b) { return b == '0' || b == '1' || b == '?'; }

/* From strongest to weakest; 0 is an operand or a bracket. */
int level_of(Kind kind)
{
    switch (kind) {
    case NOT: case EDGE: return 1;
    case XOR: case XNOR: case EQ: case NE: case GT: case LT: case GE: case LE: return 2;
    case AND: return 3;
    case THEN: case EITHER: case WITH_THEN: case ANY_ORDER: return 4;
    case OR: return 5;
    case ASK: return 6;
    default: return 0;
    }
}

/* The number of a half of an edge: ? 0 1 X H L W Z U; -1 where it is none. */
static int half_of(int b)
{
    static const char upper[] = "?01XHLWZU", lower[] = "?01xhlwzu";
    for (int i = 0; i < 9; i++)
        if (b == upper[i] || b == lower[i]) return i;
    return -1;
}

typedef struct { const byte *text; long length; } Text;

static int at(Text t, long i) { return i < t.length ? t.text[i] : -1; }

/* The based half that starts at i, or -1. */
static int based_half(Text t, long i)
{
    if (at(t, i) != '\'' || at(t, i + 1) != 'b') return -1;
    int half = at(t, i + 2) < 0 ? -1 : half_of(at(t, i + 2));
    return half >= 0 && !is_name_byte(at(t, i + 3)) ? half : -1;
}

/* Each of these takes one token at i and gives its length, or 0 with *bad the place refused. */
static int take_based(Text t, long i, Token *out, long *bad)
{
    int first = based_half(t, i);
    *bad = i;
    if (first < 0) return 0;
    if (at(t, i + 3) != '\'') {
        if (first == 0) return 0;
        *out = (Token){LITERAL, (int)i, 3, first - 1};
        return 3;
    }
    int second = based_half(t, i + 3);
    *bad = i + 3;
    if (second < 0) return 0;
    *out = (Token){EDGE, (int)i, 6, 9 * first + second};
    return 6;
}

static int take_plain(Text t, long i, Token *out, long *bad)
{
    int run = 0, b = at(t, i), next = at(t, i + 1);
    while (is_plain(at(t, i + run))) run++;
    *bad = i;
    if (run >= 3) return 0;
    if (run == 2) *out = (Token){EDGE, (int)i, 2, 9 * half_of(b) + half_of(next)};
    else if (b != '?') *out = (Token){LITERAL, (int)i, 1, b - '0'};
    else if (next == '!') *out = (Token){EDGE, (int)i, 2, 81};
    else if (next == '-') *out = (Token){EDGE, (int)i, 2, 82};
    else *out = (Token){ASK, (int)i, 1, 0};
    return out->length;
}

static int take_name(Text t, long i, Token *out, long *bad)
{
    int n = 0;
    while (is_name_byte(at(t, i + n))) n++;
    *bad = i;
    if (n > 32) return 0;
    *out = (Token){NAME, (int)i, n, 0};
    return n;
}

static int take_sign(Text t, long i, Token *out, long *bad)
{
    static const struct { const char *sign; Kind kind; } signs[] = {
        {"<->", EITHER}, {"<&>", ANY_ORDER},
        {"~^", XNOR}, {"==", EQ}, {"!=", NE}, {">=", GE}, {"<=", LE}, {"&&", AND}, {"||", OR}, {"->", THEN},
        {"&>", WITH_THEN},
        {"!", NOT}, {"~", NOT}, {"^", XOR}, {">", GT}, {"<", LT}, {"&", AND}, {"|", OR}, {":", COLON},
        {"(", OPEN}, {")", CLOSE},
    };
    *bad = i;
    for (size_t k = 0; k < sizeof signs / sizeof *signs; k++) {
        long n = (long)strlen(signs[k].sign);
        if (i + n <= t.length && memcmp(t.text + i, signs[k].sign, (size_t)n) == 0) {
            *out = (Token){signs[k].kind, (int)i, (int)n, 0};
            return (int)n;
        }
    }
    return 0;
}

/* All tokens of a text of at most 4,096 bytes, or 2. */
Refusal take_tokens(const byte *text, long length, Token *tokens, int *count)
{
    Text t = {text, length};
    *count = 0;
    for (long i = 0; i < length;) {
        int b = text[i], n;
        long bad;
        if (is_blank(b)) { i++; continue; }
        if (starts_name(b)) n = take_name(t, i, &tokens[*count], &bad);
        else if (is_plain(b)) n = take_plain(t, i, &tokens[*count], &bad);
        else if (b == '\'') n = take_based(t, i, &tokens[*count], &bad);
        else n = take_sign(t, i, &tokens[*count], &bad);
        if (n == 0) return (Refusal){2, bad};
        ++*count;
        i += n;
    }
    return (Refusal){0, 0};
}

/* How many bytes of the text a refusal is of: for 2 up to the next blank or the end, for 5, 6 and 7 the token's that is
   refused, of which there is none at the end; 0 for any other. */
long extent_of(const byte *text, long length, Refusal r)
{
    static Token tokens[4096];
    int count;
    long n = 0;
    if (r.number == 2)
        while (r.place + n < length && !is_blank(text[r.place + n])) n++;
    if (r.number < 5 || r.number > 7) return n;
    take_tokens(text, length, tokens, &count);
    for (int i = 0; i < count; i++)
        if (tokens[i].place == r.place) n = tokens[i].length;
    return n;
}
