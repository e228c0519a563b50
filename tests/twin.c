/* The twin: answers each case on standard input (tests/twin/lines.h) by document 01, in plain C, with nothing of the
   library. Here are its answers for texts and trace files; its chapters are in tests/twin. */
#include "twin/calls.h"
#include "twin/twin.h"
#include <stdlib.h>
#include <string.h>

enum { MAX_CELLS = 65535 * 32 };

void begin_case(void)
{
    free_nodes();
    forget_windows();
}

void do_names(void)
{
    Bytes names = take_bytes();
    if (!refused(check_names(names.at, names.length))) printf("names %ld", names.length / 32);
    end_line(0);
}

void do_read(void)
{
    Bytes names = take_bytes();
    int sort = (int)take_number();
    Bytes text = take_bytes();
    Node *tree;
    byte bytes[MAX_NODES] = {0};
    Refusal r = read_text(names.at, names.length, text.at, text.length, sort, &tree);
    if (!refused(r)) {
        printf("tree");
        say_bytes(bytes, tree_bytes(tree, bytes, 0));
    }
    printf(" of %ld", extent_of(text.at, text.length, r));
    end_line(sum_of(0, bytes, MAX_NODES));
}

void do_write(void)
{
    Bytes names = take_bytes();
    int sort = (int)take_number();
    Bytes tree = take_bytes(), out = lend(take_number());
    long size = 0;
    Refusal r = write_text(names.at, names.length, tree.at, tree.length, sort, out.length, (char *)out.at, &size);
    if (!refused(r)) printf("text %ld %.*s", size, (int)size, (char *)out.at);
    end_line(sum_of(0, out.at, out.length));
}

/* 9 for the first short one of the three lists. */
static Refusal hand_over(const File *file, Bytes names, Bytes times, Bytes states)
{
    long k = file->names, n = file->rows;
    if (names.length < 32 * k) return (Refusal){9, 32 * k};
    if (times.length / 8 < n) return (Refusal){9, n};
    if (states.length < n * k) return (Refusal){9, n * k};
    memcpy(names.at, file->slots, (size_t)(32 * k));
    memcpy(times.at, file->times, (size_t)(8 * n));
    memcpy(states.at, file->states, (size_t)(n * k));
    return (Refusal){0, 0};
}

void do_read_trace(void)
{
    static File file;
    if (!file.times) {
        file.times = malloc(8 * 65535);
        file.states = malloc(MAX_CELLS);
    }
    Bytes bytes = take_bytes(), names = lend(take_number());
    Bytes times = lend(8 * take_number()), states = lend(take_number());
    Refusal r = read_file(bytes.at, bytes.length, &file);
    if (!r.number) r = hand_over(&file, names, times, states);
    if (!refused(r)) printf("read %d %ld", file.names, file.rows);
    end_line(sum_of(sum_of(sum_of(0, names.at, names.length), times.at, times.length), states.at, states.length));
}

void do_write_trace(void)
{
    Bytes names = take_bytes(), times = take_bytes(), states = take_bytes();
    long n = take_number(), size = 0;
    Bytes out = lend(take_number());
    Refusal r = write_file(names.at, names.length, (const uint64_t *)times.at, times.length / 8, states.at,
                           states.length, n, out.length, out.at, &size);
    if (!refused(r)) printf("wrote %ld", size);
    end_line(sum_of(0, out.at, out.length));
}

void do_changes(void)
{
    long names = take_number(), n = take_number();
    Bytes states = take_bytes();
    long row = take_number();
    Refusal r = check_rows(names, n, states.length);
    if (!r.number) r = first_code(states.at, states.length);
    if (!r.number && row >= n) r = (Refusal){19, 0};
    if (!refused(r)) {
        uint32_t mask = 0;
        int many = 0;
        for (long i = 0; i < names && row > 0; i++)
            if (states.at[row * names + i] != states.at[(row - 1) * names + i]) { mask |= (uint32_t)1 << i; many++; }
        printf("changed %u %d", mask, many);
    }
    end_line(0);
}

int main(int count, char **words)
{
    for (int i = 1; i < count; i++) {
        if (*words[i] == 'e') equal_branches = 1;
        if (*words[i] == 's') steady_pins = 1;
    }
    return answer_cases();
}
