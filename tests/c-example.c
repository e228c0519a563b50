/* The library from C: document 01's trace file of one name, and table T. */
#include "../include/dachsmond.h"
#include <stdio.h>
#include <string.h>

/* document 01: one name A, rows 0 and 1 at times 0 and 10 */
static const uint8_t FILE_OF_TWO[] = {0x4E, 0x4D, 0x01, 0x41, 0x52, 0x57, 0, 0, 0, 0, 0, 0x52,
                                      0x57, 0x0A, 0,    0,    0,    1,    0x45, 0x4E, 2, 0, 0, 0};

/* table T: names A B C, codes of 0 1 X H L W Z U */
static const uint8_t NAMES[3 * 32] = {[0] = 'A', [32] = 'B', [64] = 'C'};
static const uint8_t STATES[6 * 3] = {0, 1, 1, 1, 1, 1, 1, 0, 2, 2, 0, 1, 1, 6, 1, 1, 0, 3};
static const uint64_t TIMES[6] = {0, 10, 20, 35, 40, 55};

#define OLD dachsmond_old_rules()
#define FOUR answers, 6, tried, 6, given, 6, began, 6

static void read_and_write(const char *text, bool vector)
{
    uint8_t out[100];
    dachsmond_expression e =
        dachsmond_read_expression(OLD, NAMES, sizeof NAMES, (const uint8_t *)text, strlen(text), vector);
    if (e.number) {
        printf("%s: refused with %u at %zu\n", text, e.number, e.place);
        return;
    }
    dachsmond_told w = dachsmond_write_expression(NAMES, sizeof NAMES, e.tree, e.len, vector, out, sizeof out);
    printf("%s: %zu nodes, written %.*s\n", text, e.len, (int)w.count, (const char *)out);
}

static void show_changes(void)
{
    for (uint32_t row = 0; row < 7; row++) {
        dachsmond_changed c = dachsmond_changes_at(3, 6, STATES, sizeof STATES, row);
        if (c.number) printf("row %u: refused with %u at %zu\n", row, c.number, c.place);
        else printf("row %u: changed %u, set %u\n", row, c.many, c.mask);
    }
}

static void show_answers(const char *what, const uint8_t *answers)
{
    printf("%s:", what);
    for (int i = 0; i < 6; i++) printf(" %u", answers[i]);
    printf("\n");
}

/* where the match of each row began; `-` where no time is given */
static void show_began(const uint8_t *given, const uint64_t *began)
{
    printf("began at:");
    for (int i = 0; i < 6; i++) {
        if (given[i]) printf(" %llu", (unsigned long long)began[i]);
        else printf(" -");
    }
    printf("\n");
}

/* `A ? 1 : 1` on table T, where A is unknown in row 3: X by document 01's rules, 1 by the rule of equal branches */
static void show_rules(void)
{
    static const uint8_t TEXT[] = "A ? 1 : 1";
    dachsmond_expression e = dachsmond_read_expression(OLD, NAMES, sizeof NAMES, TEXT, 9, false);
    dachsmond_rules equal = OLD;
    equal.equal_branches = true;
    dachsmond_told a = dachsmond_row_value(OLD, 3, 6, e.tree, e.len, STATES, sizeof STATES, 3);
    dachsmond_told b = dachsmond_row_value(equal, 3, 6, e.tree, e.len, STATES, sizeof STATES, 3);
    printf("A ? 1 : 1 with A unknown: %zu, by equal branches %zu\n", a.count, b.count);
}

/* Case 2 of table T with its steady pins. It is read, asked and rewritten under the same rules, and written as it was
   read: `01 A & ?- B -> 10 B & ?- A` has four tests and the answers 3 0 1 0 0 0. */
static void show_steady(void)
{
    static const uint8_t TEXT[] = "01 A -> 10 B";
    uint8_t out[100], answers[6], given[6], steps[64], tests[1024], edges[4096], flags[64];
    uint16_t operands[4096];
    uint32_t tried[6];
    uint64_t began[6];
    dachsmond_rules steady = OLD;
    steady.steady_pins = true;
    dachsmond_expression e = dachsmond_read_expression(steady, NAMES, sizeof NAMES, TEXT, 12, true);
    dachsmond_told w = dachsmond_write_expression(NAMES, sizeof NAMES, e.tree, e.len, true, out, sizeof out);
    dachsmond_match_all(steady, 3, 6, e.tree, e.len, TIMES, 6, STATES, sizeof STATES, FOUR);
    printf("%.*s with steady pins", (int)w.count, (const char *)out);
    show_answers("", answers);
    w = dachsmond_rewrite(steady, 3, e.tree, e.len, steps, 64, tests, 1024, edges, 4096, operands, 4096);
    printf("%zu alternative of %u steps with %u and %u tests", w.count, steps[0], tests[0], tests[1]);
    w = dachsmond_contradictions(steady, 3, e.tree, e.len, flags, 64);
    printf(", contradictory %u of %zu\n", flags[0], w.count);
}

/* case 1 of table T by matching, its totals and the queue, and case 12, the same with row 3 corrected to 001 */
static void show_matching(void)
{
    static const uint8_t TEXT[] = "01 A", NEW[] = {0, 0, 1};
    uint8_t states[sizeof STATES], answers[6], given[6], pushed[6];
    uint32_t tried[6];
    uint64_t began[6];
    dachsmond_expression e = dachsmond_read_expression(OLD, NAMES, sizeof NAMES, TEXT, 4, true);
    dachsmond_match_all(OLD, 3, 6, e.tree, e.len, TIMES, 6, STATES, sizeof STATES, FOUR);
    show_answers("01 A", answers);
    show_began(given, began);
    dachsmond_counted c = dachsmond_totals(OLD, 3, 6, e.tree, e.len, STATES, sizeof STATES);
    printf("yes %u no %u unknown %u\n", c.yes, c.no, c.unknown);
    dachsmond_queue queue = dachsmond_empty_queue();
    for (int i = 0; i < 6; i++) {
        dachsmond_pushed p = dachsmond_push(OLD, 3, e.tree, e.len, queue, TIMES[i], STATES + 3 * i, 3);
        pushed[i] = p.answer, given[i] = p.given, began[i] = p.began;
        queue = p.queue;
    }
    show_answers("row by row", pushed);
    show_began(given, began);
    memcpy(states, STATES, sizeof STATES);
    dachsmond_correct(OLD, 3, 6, e.tree, e.len, states, sizeof states, answers, 6, 3, NEW, 3);
    show_answers("row 3 corrected", answers);
}

/* Two orders of the same alternatives, both of which answer yes at row 2: the first in order tells where the match
   began. Then times that are refused: row 2 at the time of row 1, and a push at the time of the row before. */
static void show_order(void)
{
    static const char *const TEXTS[] = {"10 B | 01 A -> 10 B", "01 A -> 10 B | 10 B"};
    static const uint64_t EARLY[6] = {0, 10, 10, 35, 40, 55};
    dachsmond_expression e;
    dachsmond_matched m;
    for (int i = 0; i < 2; i++) {
        e = dachsmond_read_expression(OLD, NAMES, sizeof NAMES, (const uint8_t *)TEXTS[i], strlen(TEXTS[i]), true);
        m = dachsmond_match_row(OLD, 3, 6, e.tree, e.len, TIMES, 6, STATES, sizeof STATES, 2);
        printf("%s, row 2: answer %u, tried %u, given %u, began at %llu\n", TEXTS[i], m.answer, m.tries, m.given,
               (unsigned long long)m.began);
    }
    m = dachsmond_match_row(OLD, 3, 6, e.tree, e.len, EARLY, 6, STATES, sizeof STATES, 2);
    printf("row 2 at time 10: refused with %u at %zu\n", m.number, m.place);
    dachsmond_pushed p = dachsmond_push(OLD, 3, e.tree, e.len, dachsmond_empty_queue(), 10, STATES, 3);
    printf("one row: %u kept, of time %llu\n", p.queue.kept, (unsigned long long)p.queue.times[0]);
    p = dachsmond_push(OLD, 3, e.tree, e.len, p.queue, 10, STATES + 3, 3);
    printf("another at time 10: refused with %u at %zu, %u kept\n", p.number, p.place, p.queue.kept);
}

/* the two alternatives of a pattern, handed in again as lists; then with an edge code that is none */
#define LISTS e.tree, e.len, steps, 2, tests, 2, edges, 2, operands, 2
static void show_listed(void)
{
    static const uint8_t TEXT[] = "01 A | 10 B";
    uint8_t steps[64], tests[1024], edges[4096], answers[6], given[6], pushed[6];
    uint16_t operands[4096];
    uint32_t tried[6];
    uint64_t began[6];
    dachsmond_expression e = dachsmond_read_expression(OLD, NAMES, sizeof NAMES, TEXT, 11, true);
    dachsmond_told k = dachsmond_rewrite(OLD, 3, e.tree, e.len, steps, 64, tests, 1024, edges, 4096, operands, 4096);
    printf("01 A | 10 B: %zu alternatives, accepted %d\n", k.count, !dachsmond_listed_fits(3, LISTS).number);
    dachsmond_listed_match_all(OLD, 3, 6, LISTS, TIMES, 6, STATES, sizeof STATES, FOUR);
    show_answers("by lists", answers);
    show_began(given, began);
    printf("tried %u %u %u %u %u %u\n", tried[0], tried[1], tried[2], tried[3], tried[4], tried[5]);
    dachsmond_matched m = dachsmond_listed_match_row(OLD, 3, 6, LISTS, TIMES, 6, STATES, sizeof STATES, 4);
    printf("row 4: answer %u, tried %u\n", m.answer, m.tries);
    dachsmond_counted c = dachsmond_listed_totals(OLD, 3, 6, LISTS, STATES, sizeof STATES);
    printf("yes %u no %u unknown %u\n", c.yes, c.no, c.unknown);
    dachsmond_queue queue = dachsmond_empty_queue();
    for (int i = 0; i < 6; i++) {
        dachsmond_pushed p = dachsmond_listed_push(OLD, 3, LISTS, queue, TIMES[i], STATES + 3 * i, 3);
        pushed[i] = p.answer, given[i] = p.given, began[i] = p.began;
        queue = p.queue;
    }
    show_answers("row by row", pushed);
    show_began(given, began);
    edges[1] = 83;
    c = dachsmond_listed_totals(OLD, 3, 6, LISTS, STATES, sizeof STATES);
    k = dachsmond_listed_fits(3, LISTS);
    printf("edge 83: accepted %d, totals refused with %u at %zu\n", !k.number, c.number, c.place);
}

/* case 1's listing, and a table of two patterns on table T, the second of them refused */
static void show_texts(void)
{
    static const uint8_t BAD[] = "01 A ->";
    uint8_t out[200];
    dachsmond_expression e = dachsmond_read_expression(OLD, NAMES, sizeof NAMES, BAD, 4, true);
    dachsmond_told w = dachsmond_list(OLD, 3, 6, e.tree, e.len, TIMES, 6, STATES, sizeof STATES, out, sizeof out);
    printf("%.*s", (int)w.count, (const char *)out);
    w = dachsmond_table_heading(out, sizeof out);
    printf("%.*s", (int)w.count, (const char *)out);
    w = dachsmond_table_line(OLD, 3, 6, e.tree, e.len, STATES, sizeof STATES, BAD, 4, out, sizeof out);
    printf("%.*s", (int)w.count, (const char *)out);
    w = dachsmond_table_refused(BAD, 7, 5, 7, out, sizeof out);
    printf("%.*s", (int)w.count, (const char *)out);
    w = dachsmond_table_total(1, 1, 3, 1, 5, out, sizeof out);
    printf("%.*s", (int)w.count, (const char *)out);
    w = dachsmond_table_heading(out, 3);
    printf("heading in 3 bytes: refused with %u at %zu\n", w.number, w.place);
}

int main(void)
{
    uint8_t names[32], states[2], file[24];
    uint64_t times[2];
    dachsmond_trace t = dachsmond_read_trace(FILE_OF_TWO, 24, names, 32, times, 2, states, 2);
    printf("%zu name %s, %zu rows, times %llu %llu, states %u %u\n", t.names, (const char *)names, t.rows, (unsigned long long)times[0],
           (unsigned long long)times[1], states[0], states[1]);
    dachsmond_told w = dachsmond_write_trace(names, 32, times, 2, states, 2, 2, file, 24);
    printf("written again: %zu bytes, %s\n", w.count, memcmp(file, FILE_OF_TWO, 24) ? "others" : "the same");
    t = dachsmond_read_trace(FILE_OF_TWO, 23, names, 32, times, 2, states, 2);
    printf("one byte less: refused with %u at %zu\n", t.number, t.place);
    printf("version %u.%u, the header's is %s\n", (unsigned)(dachsmond_version() >> 16),
           (unsigned)(dachsmond_version() >> 8 & 255), dachsmond_version() == DACHSMOND_VERSION ? "the same" : "another");
    read_and_write("((01 A)->10 B)&&C", true);
    read_and_write("A?C:'bz", false);
    read_and_write("01 A -> B", true);
    w = dachsmond_check_names(NAMES, sizeof NAMES);
    printf("%zu names\n", w.count);
    show_changes();
    show_matching();
    show_order();
    show_listed();
    show_texts();
    show_rules();
    show_steady();
}
