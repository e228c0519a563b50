/* cases SEED COUNT LETTERS [ROWS]: random cases for the calls named by the letters of lines.h, on standard output.
   With ROWS every trace has so many rows, or one more. */
#include "cases.h"
#include <stdio.h>
#include <stdlib.h>
#include <string.h>

static Buffer names, text, tree, states, times, file;

long fixed_rows;

static const char SIGNS[] = "01?!-'bXxAB()&|<>=^~: ";

/* Mostly small, now and then as large as may be. */
int any_size(void)
{
    if (fixed_rows) return 2 + (int)below(30);
    return 1 + (int)below(once_in(12) ? 260 : once_in(3) ? 40 : 10);
}

long any_rows(long most)
{
    if (fixed_rows) return fixed_rows + once_in(4);
    return once_in(40) ? below(2) : once_in(20) ? 1 + below(16 * most) : 1 + below(most);
}

void make_states(Buffer *out, long n)
{
    int wild = (int)below(3);
    clear(out);
    for (long i = 0; i < n; i++) add(out, (int)below(wild == 0 || once_in(8) ? 8 : 1 + wild));
    if (once_in(20) && n > 0) out->at[below(n)] = (uint8_t)(8 + below(248));
}

static void add_number(Buffer *out, int width, uint64_t x)
{
    for (int i = 0; i < width; i++) add(out, (int)(x >> 8 * i & 255));
}

/* A first time: small, large, around 2^32, or so that the last ones are around 2^64. */
static uint64_t first_time(long n)
{
    if (once_in(6)) return UINT32_MAX - (uint64_t)below(3 * n + 2);
    if (once_in(8)) return UINT64_MAX - (uint64_t)below(2 * n + 2);
    if (once_in(8)) return (uint64_t)below(1L << 62) * 3;
    return once_in(4) ? (uint64_t)below(4290000000) : (uint64_t)below(3);
}

/* Rising times; now and then one that does not rise, or a jump past 2^32. */
long make_times(Buffer *out, long n)
{
    uint64_t t = first_time(n);
    clear(out);
    for (long i = 0; i < n; i++) {
        add_number(out, 8, t);
        t += once_in(20 + 2 * n) ? 0 : 1 + (uint64_t)below(once_in(40) ? 1L << 33 : once_in(20) ? 100000 : 12);
    }
    return n;
}

void make_file(Buffer *out)
{
    long k = make_names(&names), n = any_rows(6), extra = once_in(60) ? 33 - k : 0;
    make_states(&states, n * k);
    make_times(&times, n);
    clear(out);
    for (long i = 0; i < k + extra; i++) {
        const uint8_t *slot = names.at + 32 * (i < names.length / 32 ? i : 0);
        long size = (long)strnlen((const char *)slot, 32);
        add_text(out, "NM");
        add(out, (int)size);
        for (long j = 0; j < size; j++) add(out, slot[j]);
    }
    for (long i = 0; i < n; i++) {
        int wide = time_in(&times, i) > UINT32_MAX || once_in(8);
        add_text(out, wide ? "RL" : "RW");
        add_number(out, wide ? 8 : 4, time_in(&times, i));
        for (long j = 0; j < k; j++) add(out, states.at[i * k + j]);
    }
    add_text(out, "EN");
    add_number(out, 4, (uint64_t)(n + once_in(40)));
    while (once_in(30)) add(out, (int)below(256));
    if (once_in(3)) damage(out, "NMRWLEN\x01\x02\x08" "A");
}

/* A length: mostly enough, else about the length needed. */
long room_for(long needed) { return once_in(3) ? needed + below(3) - (needed > 0) : needed + 8; }

static void case_read(void)
{
    long k = make_names(&names);
    int sort = (int)below(2);
    clear(&text);
    if (once_in(6)) make_edge_text(&text);
    else if (once_in(4)) make_soup(&text, k);
    else make_text(&text, k, once_in(20) ? 1 - sort : sort, any_size());
    if (once_in(4)) damage(&text, SIGNS);
    printf("e");
    say(&names);
    printf(" %d", sort);
    say(&text);
}

/* A text of about 4,096 bytes: 32 of a name, 3 of a sign and its blanks, and a few digits. */
static void some_long_text(void)
{
    long k = make_long_names(&names);
    clear(&tree);
    add(&tree, (int)below(k));
    for (long i = 115 + below(4); i > 0; i--) {
        add(&tree, once_in(60) ? 32 : (int)below(k));
        add(&tree, 40);
    }
}

static void case_write(void)
{
    int sort = (int)below(2);
    if (sort == 0 && once_in(10)) some_long_text();
    else some_tree(&tree, make_names(&names), sort, any_size());
    printf("w");
    say(&names);
    printf(" %d", sort);
    say(&tree);
    printf(" %ld", once_in(3) ? below(40) : 5000L);
}

static void case_read_trace(void)
{
    make_file(&file);
    long k = names.length / 32, n = times.length / 8;
    printf("f");
    say(&file);
    printf(" %ld", room_for(32 * k));
    printf(" %ld", room_for(n));
    printf(" %ld", room_for(n * k));
}

static void case_write_trace(void)
{
    long k = make_names(&names), n = make_times(&times, any_rows(6)), needed = 6;
    make_states(&states, n * k + (once_in(40) ? 1 : 0));
    for (long i = 0; i + 32 <= names.length; i += 32) needed += 3 + (long)strnlen((const char *)names.at + i, 32);
    for (long i = 0; i < n; i++) needed += (time_in(&times, i) > UINT32_MAX ? 10 : 6) + k;
    printf("g");
    say(&names);
    say(&times);
    say(&states);
    printf(" %ld", once_in(40) ? n + 1 : n);
    printf(" %ld", room_for(needed));
}

static void case_names(void)
{
    make_names(&names);
    printf("n");
    say(&names);
}

/* A case of a call over rows, of one by lists, or of the listing and the table. */
static void other_case(int letter)
{
    if (strchr("FRMTQ", letter)) case_listed(letter);
    else if (strchr("LHIJK", letter)) case_listing(letter);
    else if (letter == 'c') case_changes();
    else if (letter == 'q') case_queue();
    else if (letter == 'l' || letter == 'x') case_rewrite(letter);
    else case_pattern(letter);
}

int main(int argc, char **argv)
{
    if (argc < 4) return fprintf(stderr, "usage: cases SEED COUNT LETTERS [ROWS]\n"), 2;
    const char *letters = argv[3];
    fixed_rows = argc > 4 ? atol(argv[4]) : 0;
    seed(strtoull(argv[1], NULL, 10));
    for (long i = atol(argv[2]); i > 0; i--) {
        int letter = letters[below((long)strlen(letters))];
        if (letter == 'n') case_names();
        else if (letter == 'e') case_read();
        else if (letter == 'w') case_write();
        else if (letter == 'f') case_read_trace();
        else if (letter == 'g') case_write_trace();
        else other_case(letter);
        putchar('\n');
    }
}
