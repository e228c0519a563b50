/* The library's side: answers each case on standard input by the library for C. */
#include "library.h"

dachsmond_rules rules;

void begin_case(void) {}

bool refused(unsigned number, size_t place, uint64_t others)
{
    if (number) say_refused((int)number, place);
    if (number && others) printf(" and told more");
    return number != 0;
}

Lent lend_four(void)
{
    Lent l;
    l.answers = lend(take_number());
    l.tried = lend(4 * take_number());
    l.given = lend(take_number());
    l.began = lend(8 * take_number());
    return l;
}

void say_matched(dachsmond_matched r)
{
    if (!refused(r.number, r.place, r.answer | r.tries | r.given | r.began))
        printf("row %u %u %u %llu", r.answer, r.tries, r.given, (unsigned long long)r.began);
    end_line(0);
}

void say_all(dachsmond_told r, Lent l)
{
    if (!refused(r.number, r.place, r.count)) printf("done %zu", r.count);
    uint64_t sum = sum_of(sum_of(0, l.answers.at, l.answers.length), l.tried.at, l.tried.length);
    end_line(sum_of(sum_of(sum, l.given.at, l.given.length), l.began.at, l.began.length));
}

void do_names(void)
{
    Bytes names = take_bytes();
    dachsmond_told r = dachsmond_check_names(names.at, names.length);
    if (!refused(r.number, r.place, r.count)) printf("names %zu", r.count);
    end_line(0);
}

void do_read(void)
{
    Bytes names = take_bytes();
    bool vector = take_number();
    Bytes text = take_bytes();
    dachsmond_expression r = dachsmond_read_expression(rules, names.at, names.length, text.at, text.length, vector);
    if (!refused(r.number, r.place, r.len)) {
        printf("tree");
        say_bytes(r.tree, r.len);
    }
    printf(" of %zu", r.extent);
    end_line(sum_of(0, r.tree, sizeof r.tree));
}

void do_write(void)
{
    Bytes names = take_bytes();
    bool vector = take_number();
    Bytes tree = take_bytes(), out = lend(take_number());
    dachsmond_told r =
        dachsmond_write_expression(names.at, names.length, tree.at, tree.length, vector, out.at, out.length);
    if (!refused(r.number, r.place, r.count)) printf("text %zu %.*s", r.count, (int)r.count, (char *)out.at);
    end_line(sum_of(0, out.at, out.length));
}

void do_read_trace(void)
{
    Bytes file = take_bytes(), names = lend(take_number());
    Bytes times = lend(8 * take_number()), states = lend(take_number());
    dachsmond_trace r = dachsmond_read_trace(file.at, file.length, names.at, names.length, (uint64_t *)times.at,
                                             times.length / 8, states.at, states.length);
    if (!refused(r.number, r.place, r.names | r.rows)) printf("read %zu %zu", r.names, r.rows);
    end_line(sum_of(sum_of(sum_of(0, names.at, names.length), times.at, times.length), states.at, states.length));
}

void do_write_trace(void)
{
    Bytes names = take_bytes(), times = take_bytes(), states = take_bytes();
    long n = take_number();
    Bytes out = lend(take_number());
    dachsmond_told r = dachsmond_write_trace(names.at, names.length, (const uint64_t *)times.at, times.length / 8,
                                             states.at, states.length, n, out.at, out.length);
    if (!refused(r.number, r.place, r.count)) printf("wrote %zu", r.count);
    end_line(sum_of(0, out.at, out.length));
}

void do_changes(void)
{
    long names = take_number(), n = take_number();
    Bytes states = take_bytes();
    dachsmond_changed r = dachsmond_changes_at(names, n, states.at, states.length, take_number());
    if (!refused(r.number, r.place, r.mask | r.many)) printf("changed %u %u", r.mask, r.many);
    end_line(0);
}

int main(int count, char **words)
{
    rules = dachsmond_old_rules();
    for (int i = 1; i < count; i++) {
        if (*words[i] == 'e') rules.equal_branches = true;
        if (*words[i] == 's') rules.steady_pins = true;
    }
    return answer_cases();
}
