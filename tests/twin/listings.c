/* The twin's side of the listing and of a pattern's line of the table (18, 10, 15, 9), and of its other lines (9). */
#include "calls.h"
#include "twin.h"
#include <stdarg.h>
#include <stdlib.h>
#include <string.h>

typedef struct { char *at; long length, room; } Text;

static void put(Text *t, const char *format, ...)
{
    va_list rest;
    va_start(rest, format);
    if (t->room < t->length + 300) t->at = realloc(t->at, (size_t)(t->room = 2 * t->room + 1000));
    t->length += vsnprintf(t->at + t->length, 300, format, rest);
    va_end(rest);
}

/* 9, or the text at the front of the room. */
static void hand_over(Text *t, Bytes out, Refusal r)
{
    if (!r.number && t->length > out.length) r = (Refusal){9, t->length};
    if (!refused(r)) {
        memcpy(out.at, t->at, (size_t)t->length);
        printf("text %ld", t->length);
        if (t->length < 500) say_bytes(out.at, t->length);
    }
    end_line(sum_of(0, out.at, out.length));
    free(t->at);
}

void do_listing(void)
{
    static const char *const words[] = {"no", "yes", "unknown", "none"};
    Asked a = take_asked(0);
    Bytes times = take_bytes(), out = lend(take_number());
    Refusal r = check_asked(&a, times.length == 8 * a.n, VECTOR);
    Text t = {0};
    long count[4] = {0};
    put(&t, "time answer\n");
    for (long i = 0; i < a.n && !r.number; i++) {
        int answer = number_at(&a.pattern, &a.trace, i);
        put(&t, "%llu %s\n", (unsigned long long)((const uint64_t *)times.at)[i], words[answer]);
        count[answer]++;
    }
    put(&t, "yes %ld no %ld unknown %ld\n", count[1], count[0], count[2]);
    hand_over(&t, out, r);
}

/* A pattern's bytes below 32 are shown as spaces; then the line's end. */
static void put_pattern(Text *t, Bytes pattern)
{
    for (long i = 0; i < pattern.length; i++) put(t, "%c", pattern.at[i] < 32 ? ' ' : pattern.at[i]);
    put(t, "\n");
}

/* yes / events by long division: six decimals, half a last place goes up. With at most 65,534 events no share below 1
   is so near 1 that it is shown as 1. */
static void put_share(Text *t, uint64_t yes, uint64_t events)
{
    uint64_t whole = yes / events, left = yes % events, decimals = 0;
    for (int i = 0; i < 6; i++) {
        decimals = 10 * decimals + 10 * left / events;
        left = 10 * left % events;
    }
    if (2 * left >= events) decimals++;
    put(t, "%llu.%06llu", (unsigned long long)whole, (unsigned long long)decimals);
}

void do_heading(void)
{
    Bytes out = lend(take_number());
    Text t = {0};
    put(&t, "seen\tshare\tunknown\tno\tpattern\n");
    hand_over(&t, out, (Refusal){0, 0});
}

void do_line(void)
{
    Asked a = take_asked(0);
    Bytes pattern = take_bytes(), out = lend(take_number());
    Refusal r = check_asked(&a, 1, VECTOR);
    Text t = {0};
    long count[4] = {0};
    for (long i = 0; i < a.n && !r.number; i++) count[number_at(&a.pattern, &a.trace, i)]++;
    put(&t, "%ld\t", count[1]);
    if (a.n > 1) put_share(&t, (uint64_t)count[1], (uint64_t)a.n - 1);
    else put(&t, "-");
    put(&t, "\t%ld\t%ld\t", count[2], count[0]);
    put_pattern(&t, pattern);
    hand_over(&t, out, r);
}

void do_refused_line(void)
{
    Bytes pattern = take_bytes();
    long number = take_number();
    uint64_t place = take_wide();
    Bytes out = lend(take_number());
    Text t = {0};
    put(&t, "refused %ld at %llu\t-\t-\t-\t", number, (unsigned long long)place);
    put_pattern(&t, pattern);
    hand_over(&t, out, (Refusal){0, 0});
}

void do_total_line(void)
{
    unsigned long long field[5];
    for (int i = 0; i < 5; i++) field[i] = take_wide();
    Bytes out = lend(take_number());
    Text t = {0};
    put(&t, "%llu\t-\t%llu\t%llu\t", field[0], field[1], field[2]);
    put(&t, "total patterns %llu events %llu\n", field[3], field[4]);
    hand_over(&t, out, (Refusal){0, 0});
}
