/* Random cases of the listing and of the table's lines. */
#include "cases.h"
#include <stdio.h>

static Buffer tree, states, times, pattern;

/* Names, rows, a tree and states; now and then of so many events that halves of a millionth come up. */
static long say_asked(void)
{
    static const long halves[] = {128, 384, 640, 3200};
    long k, n;
    some_rows(&states, &k, &n);
    if (!fixed_rows && once_in(6)) make_states(&states, k * (n = 1 + halves[below(once_in(4) ? 4 : 2)]));
    some_tree(&tree, k, 1, any_size());
    printf(" %ld %ld", k, n);
    say(&tree);
    say(&states);
    return n;
}

/* About as long as the listing, or long enough for any. */
static void say_listing(void)
{
    long n = say_asked();
    make_times(&times, n + once_in(40));
    say(&times);
    printf(" %ld", once_in(3) ? 30 + below(14 * n + 20) : 80 + 29 * n);
}

/* Of any width up to so many bits, and often near a power of ten or of two. */
static unsigned long long wide(int bits)
{
    static const unsigned long long powers[] = {10, 100, 1000000, 1000000000};
    unsigned long long top = bits < 64 ? (1ull << bits) - 1 : ~0ull, x = (unsigned long long)below(1L << 62);
    x = x * 4 + (unsigned long long)below(4);
    if (once_in(6)) return top - (unsigned long long)below(2);
    if (once_in(4)) return powers[below(4)] - (unsigned long long)below(2);
    return (x & top) >> below(bits);
}

static void make_pattern(void)
{
    clear(&pattern);
    if (once_in(4)) for (long i = below(20); i > 0; i--) add(&pattern, (int)below(256));
    else make_text(&pattern, 4, (int)below(2), 1 + (int)below(8));
}

void case_listing(int letter)
{
    printf("%c", letter);
    if (letter == 'L') { say_listing(); return; }
    if (letter == 'I') say_asked();
    if (letter == 'I' || letter == 'J') {
        make_pattern();
        say(&pattern);
    }
    if (letter == 'J') printf(" %ld %llu", below(256), wide(64));
    if (letter == 'K') printf(" %llu %llu %llu %llu %llu", wide(64), wide(64), wide(64), wide(64), wide(64));
    printf(" %ld", once_in(2) ? below(70) : 300);
}
