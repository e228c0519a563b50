/* The library's side of the listing and of the table's lines. */
#include "library.h"

static void say_text(dachsmond_told r, Bytes out)
{
    if (!refused(r.number, r.place, r.count)) {
        printf("text %zu", r.count);
        if (r.count < 500) say_bytes(out.at, r.count);
    }
    end_line(sum_of(0, out.at, out.length));
}

typedef struct { size_t names, n; Bytes tree, states; } Asked;

static Asked take_asked(void)
{
    Asked a;
    a.names = take_number();
    a.n = take_number();
    a.tree = take_bytes();
    a.states = take_bytes();
    return a;
}

void do_listing(void)
{
    Asked a = take_asked();
    Bytes times = take_bytes(), out = lend(take_number());
    say_text(dachsmond_list(rules, a.names, a.n, a.tree.at, a.tree.length, (const uint64_t *)times.at, times.length / 8,
                            a.states.at, a.states.length, out.at, out.length), out);
}

void do_heading(void)
{
    Bytes out = lend(take_number());
    say_text(dachsmond_table_heading(out.at, out.length), out);
}

void do_line(void)
{
    Asked a = take_asked();
    Bytes pattern = take_bytes(), out = lend(take_number());
    say_text(dachsmond_table_line(rules, a.names, a.n, a.tree.at, a.tree.length, a.states.at, a.states.length, pattern.at,
                                  pattern.length, out.at, out.length), out);
}

void do_refused_line(void)
{
    Bytes pattern = take_bytes();
    uint8_t number = take_number();
    uint64_t place = take_wide();
    Bytes out = lend(take_number());
    say_text(dachsmond_table_refused(pattern.at, pattern.length, number, place, out.at, out.length), out);
}

void do_total_line(void)
{
    uint64_t yes = take_wide(), unknown = take_wide(), no = take_wide(), patterns = take_wide(), events = take_wide();
    Bytes out = lend(take_number());
    say_text(dachsmond_table_total(yes, unknown, no, patterns, events, out.at, out.length), out);
}
