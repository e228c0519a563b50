/* Random cases of the queue and of the calls by alternatives handed in as lists. */
#include "cases.h"
#include <stdio.h>

static Buffer tree, lists[4], states, times, held, clock, rows;

enum { STEPS, TESTS, EDGES, OPERANDS };

/* Rising times for the rows kept and the rows pushed. Now and then one does not rise, or anything is behind those that
   are kept. */
static void make_clocks(long kept, long pushes)
{
    make_rising(&clock, kept + pushes);
    long at = 1 + below(once_in(3) ? kept - 1 : kept + pushes - 1);
    if (kept + pushes > 1 && once_in(6)) set_time(&clock, at, time_in(&clock, at - 1) - (uint64_t)below(3));
    clear(&times);
    for (long i = 8 * kept; i < 8 * (kept + pushes); i++) add(&times, clock.at[i]);
    clock.length = 8 * kept;
    if (once_in(4)) for (long i = 8 * below(9); i > 0; i--) add(&clock, (int)below(256));
    if (clock.length > 8 * 16) clock.length = 8 * 16;
}

/* How many rows a queue keeps, their states and times, the size of a row, rows of that size, and their times. */
static void say_queue(long k)
{
    long kept = once_in(3) ? 0 : once_in(20) ? 14 + below(5) : below(4), size = k, pushes = 1 + below(12);
    make_states(&held, kept * k);
    if (once_in(10) && kept * k > 0) held.at[below(held.length)] = (uint8_t)(8 + below(248));
    if (once_in(4)) for (long i = below(70); i > 0; i--) add(&held, (int)below(256));
    if (held.length > 512) held.length = 512;
    if (once_in(30)) size = once_in(2) ? k + 1 : below(k);
    if (fixed_rows) pushes = fixed_rows / 16;
    else if (once_in(12)) pushes *= 5;
    make_states(&rows, (size ? size : 1) * pushes);
    make_clocks(kept, pushes);
    printf(" %ld", once_in(40) ? 4294967295 - below(2) : kept);
    say(&held);
    say(&clock);
    printf(" %ld", size);
    say(&rows);
    say(&times);
}

void case_queue(void)
{
    long k = some_names();
    some_tree(&tree, k, 1, any_size());
    printf("q %ld", k);
    say(&tree);
    say_queue(k);
}

/* Some expressions one after the other, now and then with a byte between them that breaks off. */
static void make_parts(long k)
{
    clear(&tree);
    if (once_in(12)) make_edge_tree(&tree, k, 0);
    else
        for (long n = 1 + below(4); n > 0; n--) {
            make_tree(&tree, k, (int)below(2), 1 + (int)below(once_in(10) ? 60 : 9));
            if (once_in(8)) add(&tree, (int)below(256));
        }
}

/* Where a boolean expression ends, most likely, and mostly near the end of a long one. */
static long some_end(void)
{
    for (int i = 0; i < 40; i++) {
        long at = tree.length > 60 && !once_in(4) ? tree.length - 1 - below(6) : below(tree.length);
        if (tree.at[at] < 50 || tree.at[at] == 60 || tree.at[at] == 147) return at + 1;
    }
    return 1;
}

static void add_test(void)
{
    long end = once_in(300) ? below(tree.length + 2) : some_end();
    add(&lists[EDGES], once_in(200) ? 81 + (int)below(4) : make_edge());
    add(&lists[OPERANDS], (int)(end % 256));
    add(&lists[OPERANDS], (int)(end / 256));
}

/* Steps with tests; now and then with as many as may be, or more. */
static void add_alternative(int small)
{
    int steps = once_in(50) ? 14 + (int)below(5) : 1 + (int)below(3), full = !small && once_in(20);
    add(&lists[STEPS], once_in(150) ? 0 : steps);
    for (int j = 0; j < steps; j++) {
        int tests = full && j == 0 ? 60 + (int)below(6) : (int)below(3);
        add(&lists[TESTS], tests);
        while (tests-- > 0) add_test();
    }
}

/* An entry changed, put in, or taken out of one of the lists. */
static void damage_lists(void)
{
    Buffer *b = &lists[below(4)];
    if (b == &lists[OPERANDS] && once_in(2)) {
        add(b, 1);
        add(b, 0);
    } else if (b == &lists[OPERANDS]) b->length -= b->length > 0 ? 2 : 0;
    else if (b->length == 0 || once_in(3)) add(b, (int)below(4));
    else if (once_in(2)) b->length--;
    else b->at[below(b->length)] += once_in(2) ? 1 : 255;
}

static void make_lists(long k)
{
    long many = once_in(60) ? 0 : once_in(15) ? 62 + below(5) : 1 + below(5);
    make_parts(k);
    for (int i = 0; i < 4; i++) clear(&lists[i]);
    for (long i = 0; i < many; i++) add_alternative(many > 5);
    if (once_in(8)) damage_lists();
}

void case_listed(int letter)
{
    long k, n;
    some_rows(&states, &k, &n);
    make_lists(k);
    printf("%c %ld", letter, k);
    if (letter != 'F' && letter != 'Q') printf(" %ld", n);
    say(&tree);
    for (int i = 0; i < 4; i++) say(&lists[i]);
    if (letter == 'Q') say_queue(k);
    if (letter == 'Q' || letter == 'F') return;
    say(&states);
    if (letter == 'M' || letter == 'R') {
        some_times(&times, n);
        say(&times);
    }
    if (letter == 'M') say_rooms(n);
    if (letter == 'R') printf(" %ld", some_row(n));
}
