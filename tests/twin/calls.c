/* Through the cases, for both sides: see calls.h. */
#include "calls.h"
#include "lines.h"

#define ENTRY(letter, name) {letter, do_##name},
static const struct { int letter; void (*answer)(void); } calls[] = {CALLS(ENTRY)};

int answer_cases(void)
{
    for (int c; (c = next_line()) != EOF;) {
        size_t i = 0;
        while (i < sizeof calls / sizeof *calls && calls[i].letter != c) i++;
        if (i == sizeof calls / sizeof *calls) return fprintf(stderr, "no call has the letter %c\n", c), 2;
        begin_case();
        calls[i].answer();
    }
    return 0;
}
