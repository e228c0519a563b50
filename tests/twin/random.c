/* Numbers, bytes, damage and times for the random cases. */
#include "cases.h"
#include <stdio.h>
#include <stdlib.h>
#include <string.h>

static uint64_t state;

void seed(uint64_t s) { state = s; }

/* splitmix64 */
static uint64_t next(void)
{
    uint64_t z = (state += 0x9e3779b97f4a7c15u);
    z = (z ^ (z >> 30)) * 0xbf58476d1ce4e5b9u;
    z = (z ^ (z >> 27)) * 0x94d049bb133111ebu;
    return z ^ (z >> 31);
}

long below(long n) { return n <= 0 ? 0 : (long)(next() % (uint64_t)n); }
int once_in(long n) { return below(n) == 0; }

void add(Buffer *out, int byte)
{
    if (out->length == out->room) {
        out->room = 2 * out->room + 64;
        out->at = realloc(out->at, (size_t)out->room);
    }
    out->at[out->length++] = (uint8_t)byte;
}

void add_text(Buffer *out, const char *text) { while (*text) add(out, *text++); }

void clear(Buffer *out) { out->length = 0; }

void say(const Buffer *b)
{
    putchar(' ');
    if (b->length == 0) putchar('-');
    for (long i = 0; i < b->length; i++) {
        putchar("0123456789abcdef"[b->at[i] / 16]);
        putchar("0123456789abcdef"[b->at[i] % 16]);
    }
}

static int any_byte(const char *alphabet)
{
    return once_in(8) ? (int)below(256) : alphabet[below((long)strlen(alphabet))];
}

static void insert(Buffer *b, long i, int byte)
{
    add(b, 0);
    memmove(b->at + i + 1, b->at + i, (size_t)(b->length - 1 - i));
    b->at[i] = (uint8_t)byte;
}

static void take_out(Buffer *b, long i, long n)
{
    memmove(b->at + i, b->at + i + n, (size_t)(b->length - i - n));
    b->length -= n;
}

/* One to three bytes changed, put in, taken out, or the end cut off. */
void damage(Buffer *b, const char *alphabet)
{
    for (long n = 1 + below(3); n > 0; n--) {
        long i = below(b->length), what = below(8);
        if (b->length == 0 || what < 3) insert(b, i, any_byte(alphabet));
        else if (what < 5) b->at[i] = (uint8_t)any_byte(alphabet);
        else if (what < 7) take_out(b, i, 1);
        else if (once_in(2)) b->length = i;
        else take_out(b, i, below(b->length - i < 8 ? b->length - i + 1 : 8));
    }
}

uint64_t time_in(const Buffer *times, long i)
{
    uint64_t t = 0;
    for (int j = 7; j >= 0; j--) t = t << 8 | times->at[8 * i + j];
    return t;
}

void set_time(Buffer *times, long i, uint64_t t)
{
    for (int j = 0; j < 8; j++) times->at[8 * i + j] = (uint8_t)(t >> 8 * j);
}

/* From about 0 on, from anywhere, or up to the largest time. */
void make_rising(Buffer *out, long n)
{
    uint64_t t = 0, from = (uint64_t)below(3);
    clear(out);
    for (long i = 0; i < 8 * n; i++) add(out, 0);
    for (long i = 0; i < n; i++) {
        if (i > 0) t += 1 + (uint64_t)below(once_in(40) ? 1L << 33 : 12);
        set_time(out, i, t);
    }
    if (once_in(6)) from = UINT64_MAX - t;
    else if (once_in(4)) from = (uint64_t)below(1L << 62);
    for (long i = 0; i < n; i++) set_time(out, i, from + time_in(out, i));
}
