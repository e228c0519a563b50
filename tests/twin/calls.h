/* The calls by their letters (lines.h says what a case has). Each side, the twin and the library, has a function for
   each of them, and both go through the cases the same way. */
#ifndef CALLS_H
#define CALLS_H

#define CALLS(X)                                                                                              \
    X('n', names) X('e', read) X('w', write) X('f', read_trace) X('g', write_trace) X('c', changes)           \
    X('v', values) X('s', row_state) X('a', row_answer) X('b', window) X('r', match_row) X('m', match_all)    \
    X('t', totals) X('k', correction) X('l', rewrite) X('x', contradictions) X('q', pushes)                   \
    X('F', listed_fits) X('R', listed_row) X('M', listed_all) X('T', listed_totals) X('Q', listed_pushes)     \
    X('L', listing) X('H', heading) X('I', line) X('J', refused_line) X('K', total_line)

#define DECLARED(letter, name) void do_##name(void);
CALLS(DECLARED)

void begin_case(void);            /* before each case */
int answer_cases(void);           /* all cases on standard input; the program's status */
#endif
