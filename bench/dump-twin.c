/* A reader of value change dumps in C, which checks what document 02 [8] says: the C twin of `dachsmond_read_vcd`.
   It keeps the open scopes in a list that grows. */
#include "dumps.h"
#include <stdlib.h>
#include <string.h>

typedef struct { const uint8_t *at; size_t len; } Word;

typedef struct {
    const uint8_t *file, *end;
    const char *path;
    bool whole, met;
    Word *scopes;
    size_t depth, room, passed;
    Word codes[MAX_NAMES];
    Trace *t;
    bool any;
    uint64_t now;
    uint8_t number;
    const uint8_t *place;
} Reader;

static bool blank(uint8_t b) { return b == ' ' || b == '\t' || b == '\n' || b == '\r'; }

static Word next(Reader *r, const uint8_t *p)
{
    while (p < r->end && blank(*p)) p++;
    Word w = {p, 0};
    while (p < r->end && !blank(*p)) p++;
    w.len = (size_t)(p - w.at);
    return w;
}

static const uint8_t *behind(Word w) { return w.at + w.len; }

static bool is(Word w, const char *text) { return w.len == strlen(text) && memcmp(w.at, text, w.len) == 0; }

static bool one_of(Word w, const char *const *texts)
{
    for (; *texts; texts++)
        if (is(w, *texts)) return true;
    return false;
}

static bool same(Word a, Word b) { return a.len == b.len && memcmp(a.at, b.at, a.len) == 0; }

static bool fail(Reader *r, uint8_t number, const uint8_t *place)
{
    r->number = number;
    r->place = place;
    return false;
}

static const char *const kinds[] = {"event", "integer", "parameter", "reg", "supply0", "supply1", "time", "tri",
                                    "triand", "trior", "trireg", "tri0", "tri1", "wand", "wire", "wor", "real",
                                    "realtime", 0};
static const char *const reals[] = {"real", "realtime", 0};
static const char *const scope_kinds[] = {"begin", "fork", "function", "module", "task", 0};
static const char *const remarks[] = {"$comment", "$date", "$version", "$timescale", 0};
static const char *const sections[] = {"$dumpvars", "$dumpall", "$dumpon", "$dumpoff", 0};

static bool is_number(Word w)
{
    for (size_t i = 0; i < w.len; i++)
        if (w.at[i] < '0' || '9' < w.at[i]) return false;
    return w.len > 0;
}

static bool is_one(Word w)
{
    size_t i = 0;
    while (i + 1 < w.len && w.at[i] == '0') i++;
    return w.len == i + 1 && w.at[i] == '1';
}

static bool is_code(Word w)
{
    for (size_t i = 0; i < w.len; i++)
        if (w.at[i] < '!' || '~' < w.at[i]) return false;
    return w.len > 0;
}

static int value_of(uint8_t b)
{
    switch (b) {
    case '0': return 0;
    case '1': return 1;
    case 'x': case 'X': return 2;
    case 'z': case 'Z': return 6;
    default: return -1;
    }
}

static bool is_wide(Word w)
{
    if (w.len < 2) return false;
    if (w.at[0] == 'r' || w.at[0] == 'R') return true;
    if (w.at[0] != 'b' && w.at[0] != 'B') return false;
    for (size_t i = 1; i < w.len; i++)
        if (value_of(w.at[i]) < 0) return false;
    return true;
}

static int pin_of(const Reader *r, Word code)
{
    for (size_t i = 0; i < r->t->names; i++)
        if (same(r->codes[i], code)) return (int)i;
    return -1;
}

/* the words up to `$end`; where it is missing, the file's end is refused */
static bool to_end(Reader *r, const uint8_t **p)
{
    for (;;) {
        Word w = next(r, *p);
        if (w.len == 0) return fail(r, 23, r->end);
        *p = behind(w);
        if (is(w, "$end")) return true;
    }
}

static bool due_end(Reader *r, const uint8_t **p)
{
    Word w = next(r, *p);
    if (!is(w, "$end")) return fail(r, 23, w.at);
    *p = behind(w);
    return true;
}

/* whether the open scopes are the path */
static bool chosen(const Reader *r)
{
    const char *p = r->path;
    for (size_t i = 0; i < r->depth; i++) {
        Word s = r->scopes[i];
        if (i && *p++ != '.') return false;
        if (memchr(s.at, '.', s.len) || strncmp(p, (const char *)s.at, s.len) != 0) return false;
        p += s.len;
    }
    return r->depth > 0 && *p == 0;
}

static bool open_scope(Reader *r, const uint8_t **p)
{
    Word kind = next(r, *p);
    if (!one_of(kind, scope_kinds)) return fail(r, 23, kind.at);
    Word name = next(r, behind(kind));
    if (name.len == 0 || is(name, "$end")) return fail(r, 23, name.at);
    if (r->depth == r->room) r->scopes = realloc(r->scopes, (r->room = 2 * r->room + 16) * sizeof *r->scopes);
    r->scopes[r->depth++] = name;
    if (!r->whole && chosen(r)) r->met = true;
    *p = behind(name);
    return due_end(r, p);
}

/* the slot of a pin's name; whether it is a name */
static bool name_in(const Reader *r, Word name, uint8_t slot[32])
{
    size_t n = 0;
    memset(slot, 0, 32);
    for (size_t i = 0; r->whole && i < r->depth; i++) {
        Word s = r->scopes[i];
        if (32 < n + s.len + 1) return false;
        memcpy(slot + n, s.at, s.len);
        n += s.len;
        slot[n++] = '_';
    }
    if (32 < n + name.len) return false;
    memcpy(slot + n, name.at, name.len);
    n += name.len;
    for (size_t i = 0; i < n; i++) {
        uint8_t b = slot[i];
        bool letter = ('A' <= b && b <= 'Z') || ('a' <= b && b <= 'z') || b == '_';
        if (!letter && (i == 0 || b < '0' || '9' < b)) return false;
    }
    return true;
}

static bool declare(Reader *r, const uint8_t *keyword, const uint8_t **p)
{
    Trace *t = r->t;
    if (r->whole && t->names == MAX_NAMES) return fail(r, 11, keyword);
    Word kind = next(r, *p);
    if (!one_of(kind, kinds)) return fail(r, 23, kind.at);
    bool real = one_of(kind, reals);
    if (r->whole && real) return fail(r, 24, kind.at);
    Word size = next(r, behind(kind));
    if (!is_number(size)) return fail(r, 23, size.at);
    if (r->whole && !is_one(size)) return fail(r, 24, size.at);
    bool pin = !real && is_one(size) && (r->whole || chosen(r));
    if (pin && t->names == MAX_NAMES) return fail(r, 11, size.at);
    Word code = next(r, behind(size));
    if (!is_code(code) || is(code, "$end")) return fail(r, 23, code.at);
    if (pin && pin_of(r, code) >= 0) return fail(r, 25, code.at);
    Word name = next(r, behind(code));
    if (name.len == 0 || is(name, "$end")) return fail(r, 23, name.at);
    uint8_t slot[32];
    if (pin) {
        bool good = name_in(r, name, slot);
        for (size_t i = 0; good && i < t->names; i++) good = memcmp(t->slots + 32 * i, slot, 32) != 0;
        if (!good) return fail(r, 26, name.at);
    }
    Word w = next(r, behind(name));
    bool index = w.len && w.at[0] == '[';
    if (pin && index) return fail(r, 26, name.at);
    if (!index && !is(w, "$end")) return fail(r, 23, w.at);
    *p = behind(w);
    if (index && !to_end(r, p)) return false;
    if (!pin) {
        r->passed++;
        return true;
    }
    memcpy(t->slots + 32 * t->names, slot, 32);
    r->codes[t->names++] = code;
    return true;
}

static bool definitions(Reader *r, const uint8_t **p)
{
    for (;;) {
        Word w = next(r, *p);
        *p = behind(w);
        if (is(w, "$scope")) {
            if (!open_scope(r, p)) return false;
        } else if (is(w, "$upscope")) {
            if (r->depth == 0) return fail(r, 23, w.at);
            r->depth--;
            if (!due_end(r, p)) return false;
        } else if (is(w, "$var")) {
            if (!declare(r, w.at, p)) return false;
        } else if (is(w, "$enddefinitions")) {
            if (r->t->names == 0 && (r->whole || r->met)) return fail(r, 23, w.at);
            return due_end(r, p);
        } else if (one_of(w, remarks)) {
            if (!to_end(r, p)) return false;
        } else {
            return fail(r, 23, w.at);
        }
    }
}

/* a row at the time that it is, if there is none yet; where it would be one too many, that place is refused */
static bool row_now(Reader *r, const uint8_t *place)
{
    Trace *t = r->t;
    size_t k = t->names;
    if (t->rows && t->times[t->rows - 1] == r->now) return true;
    if (t->rows == MAX_ROWS) return fail(r, 11, place);
    uint8_t *row = t->states + k * t->rows;
    if (t->rows) memcpy(row, row - k, k);
    else memset(row, 7, k);
    t->times[t->rows++] = r->now;
    return true;
}

static bool change(Reader *r, Word w)
{
    Word code = {w.at + 1, w.len - 1};
    int pin = pin_of(r, code);
    if (pin < 0) return r->whole ? fail(r, 25, w.at + 1) : true;
    if (!row_now(r, w.at)) return false;
    r->t->states[r->t->names * (r->t->rows - 1) + (size_t)pin] = (uint8_t)value_of(w.at[0]);
    return true;
}

static bool is_change(Word w) { return w.len > 1 && value_of(w.at[0]) >= 0 && is_code((Word){w.at + 1, w.len - 1}); }

static bool wide(Reader *r, const uint8_t **p)
{
    Word code = next(r, *p);
    if (!is_code(code) || is(code, "$end") || pin_of(r, code) >= 0) return fail(r, 23, code.at);
    *p = behind(code);
    return true;
}

static bool new_time(Reader *r, Word w)
{
    uint64_t t = 0;
    for (size_t i = 1; i < w.len; i++) {
        unsigned d = w.at[i] - '0';
        if (t > (UINT64_MAX - d) / 10) return fail(r, 23, w.at);
        t = 10 * t + d;
    }
    if (t < r->now) return fail(r, 13, w.at);
    r->now = t;
    return r->whole ? row_now(r, w.at) : true;
}

static bool section(Reader *r, const uint8_t **p)
{
    for (;;) {
        Word w = next(r, *p);
        *p = behind(w);
        if (is(w, "$end")) return true;
        if (is_change(w)) {
            if (!change(r, w)) return false;
        } else if (!r->whole && is_wide(w)) {
            if (!wide(r, p)) return false;
        } else {
            return fail(r, 23, w.at);
        }
    }
}

static bool changes(Reader *r, const uint8_t **p)
{
    for (;;) {
        Word w = next(r, *p);
        if (w.len == 0) break;
        *p = behind(w);
        bool good;
        if (w.at[0] == '#' && is_number((Word){w.at + 1, w.len - 1})) good = new_time(r, w);
        else if (is_change(w)) good = change(r, w);
        else if (w.at[0] == '$' && one_of(w, sections)) good = section(r, p);
        else if (is(w, "$comment")) good = to_end(r, p);
        else if (!r->whole && is_wide(w)) good = wide(r, p);
        else good = fail(r, 23, w.at);
        if (!good) return false;
    }
    if (!r->whole && !r->met) return fail(r, 26, r->end);
    if (r->t->rows == 0) return fail(r, 23, r->end);
    return true;
}

Dumped twin_dump(const uint8_t *file, size_t length, const char *path, Trace *t)
{
    Reader r = {.file = file, .end = file + length, .path = path, .whole = !*path, .t = t};
    t->names = t->rows = 0;
    const uint8_t *p = file;
    bool good = definitions(&r, &p) && changes(&r, &p);
    free(r.scopes);
    if (!good) return (Dumped){.number = r.number, .place = (size_t)(r.place - file)};
    return (Dumped){.names = t->names, .rows = t->rows, .passed = r.passed};
}
