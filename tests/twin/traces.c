/* Chapter "Trace file": reading record by record, and writing; what rows a call takes. */
#include "twin.h"
#include <stdlib.h>
#include <string.h>

enum { MAX_ROWS = 65535, MAX_NAMES = 32 };

static uint32_t word(const byte *p)
{
    return p[0] | (uint32_t)p[1] << 8 | (uint32_t)p[2] << 16 | (uint32_t)p[3] << 24;
}

static Refusal take_name_record(const byte *f, long length, long at, File *out, long *next)
{
    if (at + 2 >= length || at + 3 + f[at + 2] > length) return (Refusal){14, length};
    int n = f[at + 2];
    byte slot[32] = {0};
    if (n == 0 || n > 32 || !starts_name(f[at + 3])) return (Refusal){12, at + 2};
    for (int i = 0; i < n; i++)
        if (!is_name_byte(f[at + 3 + i])) return (Refusal){12, at + 2};
    memcpy(slot, f + at + 3, (size_t)n);
    for (int i = 0; i < out->names; i++)
        if (memcmp(slot, out->slots + 32 * i, 32) == 0) return (Refusal){12, at + 2};
    memcpy(out->slots + 32 * out->names++, slot, 32);
    *next = at + 3 + n;
    return (Refusal){0, 0};
}

/* `RW` with four time bytes, `RL` with eight. */
static Refusal take_row_record(const byte *f, long length, long at, int width, File *out, long *next)
{
    long codes = at + 2 + width;
    if (codes + out->names > length) return (Refusal){14, length};
    uint64_t time = word(f + at + 2);
    if (width == 8) time |= (uint64_t)word(f + at + 6) << 32;
    if (out->rows > 0 && time <= out->times[out->rows - 1]) return (Refusal){13, at + 2};
    for (int i = 0; i < out->names; i++)
        if (f[codes + i] > 7) return (Refusal){15, codes + i};
    out->times[out->rows] = time;
    memcpy(out->states + out->rows * out->names, f + codes, (size_t)out->names);
    out->rows++;
    *next = codes + out->names;
    return (Refusal){0, 0};
}

static Refusal take_end_record(const byte *f, long length, long at, const File *out)
{
    if (at + 6 > length) return (Refusal){14, length};
    if (word(f + at + 2) != (uint32_t)out->rows) return (Refusal){16, at + 2};
    if (at + 6 < length) return (Refusal){17, at + 6};
    return (Refusal){0, 0};
}

static int is_mark(const byte *f, long at, const char *mark) { return f[at] == mark[0] && f[at + 1] == mark[1]; }

/* All but 9, which the lent lists decide. `out` has room for the largest trace. */
Refusal read_file(const byte *f, long length, File *out)
{
    out->names = 0;
    out->rows = 0;
    for (long at = 0;;) {
        Refusal r;
        if (at + 2 > length) return (Refusal){14, length};
        if (is_mark(f, at, "EN") && out->rows > 0) return take_end_record(f, length, at, out);
        if (is_mark(f, at, "NM") && out->rows == 0 && out->names < MAX_NAMES)
            r = take_name_record(f, length, at, out, &at);
        else if ((is_mark(f, at, "RW") || is_mark(f, at, "RL")) && out->names > 0 && out->rows < MAX_ROWS)
            r = take_row_record(f, length, at, f[at + 1] == 'W' ? 4 : 8, out, &at);
        else return (Refusal){11, at};
        if (r.number) return r;
    }
}

static long put_number(byte *out, long at, const char *mark, int width, uint64_t x)
{
    out[at] = (byte)mark[0];
    out[at + 1] = (byte)mark[1];
    for (int i = 0; i < width; i++) out[at + 2 + i] = (byte)(x >> 8 * i);
    return at + 2 + width;
}

static long put_file(const byte *names, int count, const uint64_t *times, const byte *states, long n, byte *out)
{
    long at = 0;
    for (int i = 0; i < count; i++) {
        int size = 0;
        while (size < 32 && names[32 * i + size]) size++;
        out[at++] = 'N';
        out[at++] = 'M';
        out[at++] = (byte)size;
        memcpy(out + at, names + 32 * i, (size_t)size);
        at += size;
    }
    for (long i = 0; i < n; i++) {
        int fits = times[i] <= UINT32_MAX;
        at = put_number(out, at, fits ? "RW" : "RL", fits ? 4 : 8, times[i]);
        memcpy(out + at, states + i * count, (size_t)count);
        at += count;
    }
    return put_number(out, at, "EN", 4, (uint64_t)n);
}

/* 18, 12, then 13 and 15 row by row, 9. `out` has `room` bytes. */
Refusal write_file(const byte *names, long names_length, const uint64_t *times, long times_length,
                   const byte *states, long states_length, long n, long room, byte *out, long *size)
{
    Refusal r = check_names(names, names_length);
    long count = names_length / 32;
    if (r.number == 18 || n < 1 || n > MAX_ROWS || times_length != n || states_length != n * count)
        return (Refusal){18, 0};
    if (r.number) return r;
    for (long i = 0; i < n; i++) {
        if (i > 0 && times[i] <= times[i - 1]) return (Refusal){13, i};
        for (long k = i * count; k < (i + 1) * count; k++)
            if (states[k] > 7) return (Refusal){15, k};
    }
    byte *whole = malloc((size_t)(count * 35 + n * (10 + count) + 6));
    *size = put_file(names, (int)count, times, states, n, whole);
    if (*size <= room) memcpy(out, whole, (size_t)*size);
    free(whole);
    return *size <= room ? (Refusal){0, 0} : (Refusal){9, *size};
}

/* 18 for a call over rows. */
Refusal check_rows(long names, long n, long states_length)
{
    if (names < 1 || names > MAX_NAMES || n < 1 || n > MAX_ROWS || states_length != n * names) return (Refusal){18, 0};
    return (Refusal){0, 0};
}

/* 13: the first row whose time is not above the last one's; n where all rise. */
long first_early(const uint64_t *times, long n)
{
    for (long i = 1; i < n; i++)
        if (times[i] <= times[i - 1]) return i;
    return n;
}

/* 15: the first code above 7. */
Refusal first_code(const byte *states, long length)
{
    for (long i = 0; i < length; i++)
        if (states[i] > 7) return (Refusal){15, i};
    return (Refusal){0, 0};
}
