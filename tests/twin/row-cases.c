/* Random cases of the calls over rows. */
#include "cases.h"
#include <stdio.h>
#include <string.h>

static Buffer tree, states, times, old, fresh;

/* Of a sort, now and then of the other one, near a limit, or damaged. */
void some_tree(Buffer *out, long k, int sort, int size)
{
    clear(out);
    if (once_in(20) && !fixed_rows) make_edge_tree(out, k, sort);
    else make_tree(out, k, once_in(40) ? 1 - sort : sort, size);
    if (once_in(30)) for (int i = 0; i < 8; i++) out->at[below(out->length)] = (uint8_t)below(256);
    if (once_in(20)) damage(out, "\x01\x20\x28\x32\x38\x39\x3a\x3c\x40");
}

/* Mostly few; now and then about as many as may be, or none. */
long some_names(void)
{
    static const long ends[] = {0, 31, 32, 33, 34};
    return once_in(25) ? ends[below(5)] : once_in(4) ? 1 + below(32) : 1 + below(4);
}

/* Names and rows of a call over rows; the states fit unless it says otherwise. */
void some_rows(Buffer *out, long *k, long *n)
{
    *k = some_names();
    *n = any_rows(24);
    make_states(out, *k * *n + once_in(60));
}

long some_row(long n) { return once_in(12) ? n + below(3) : below(n); }

/* They rise; now and then one is at most the one before, or there is one more or one less. */
void some_times(Buffer *out, long n)
{
    make_rising(out, n + once_in(60));
    if (n > 0 && once_in(60)) out->length -= 8;
    long last = out->length / 8 - 1, at = 1 + below(last);
    if (last > 0 && once_in(12)) set_time(out, at, time_in(out, at - 1) - (uint64_t)(once_in(2) ? 0 : below(3)));
}

void case_changes(void)
{
    long k, n;
    some_rows(&states, &k, &n);
    printf("c %ld %ld", k, n);
    say(&states);
    printf(" %ld", some_row(n));
}

void case_rewrite(int letter)
{
    long k = some_names();
    some_tree(&tree, k, 1, any_size());
    printf("%c %ld", letter, k);
    say(&tree);
    if (letter == 'x') printf(" %ld", once_in(3) ? 1 + below(8) : 64);
    else if (once_in(3)) printf(" %ld %ld %ld %ld", 1 + below(8), 1 + below(16), 1 + below(30), 1 + below(40));
    else printf(" 64 1024 4096 4096");
}

/* The twin goes through all windows, so many joins ask for few rows; far rows are asked of one edge. */
static void case_windows(int letter)
{
    static const long most[] = {0, 90, 90, 90, 90, 40, 40, 40, 14};
    int size = 2 + (int)below(once_in(3) ? 3 : 14);
    long k = some_names(), n = once_in(40) ? below(2) : 1 + below(size < 9 ? most[size] : 8), row;
    if (fixed_rows) n = any_rows(1);
    make_states(&states, k * n + once_in(60));
    clear(&tree);
    make_tree(&tree, k, once_in(40) ? 0 : 1, size);
    if (once_in(20)) damage(&tree, "\x01\x20\x28\x32\x38\x39\x3a\x3c\x40");
    row = fixed_rows && size > 4 && !once_in(30) ? below(9) : some_row(n);
    printf("%c %ld %ld", letter, k, n);
    say(&tree);
    say(&states);
    if (letter == 'b') printf(" %ld", once_in(12) ? some_row(n) : row - below(row < 20 ? row + 1 : 20));
    printf(" %ld", row);
}

void say_rooms(long n)
{
    for (int i = 0; i < 4; i++) printf(" %ld", n + once_in(60));
}

static void case_rows(int letter)
{
    long k, n;
    some_rows(&states, &k, &n);
    some_tree(&tree, k, letter == 'v' || letter == 's' ? 0 : 1, any_size());
    printf("%c %ld %ld", letter, k, n);
    say(&tree);
    say(&states);
    if (letter == 'v') printf(" %ld", n + once_in(40));
    if (letter == 'm' || letter == 'r') {
        some_times(&times, n);
        say(&times);
    }
    if (letter == 'm') say_rooms(n);
    if (letter == 'r' || letter == 's') printf(" %ld", some_row(n));
    if (letter != 'k') return;
    make_states(&old, n + once_in(40));
    make_states(&fresh, k + once_in(40));
    say(&old);
    printf(" %ld", some_row(n));
    say(&fresh);
}

void case_pattern(int letter)
{
    if (letter == 'a' || letter == 'b') case_windows(letter);
    else case_rows(letter);
}
