/* A case on a line: a letter for the call, then fields between blanks: numbers, and bytes in hexadecimal (`-`: none).
     n NAMES                         check a list of names
     e NAMES SORT TEXT               read an expression (SORT 0 boolean, 1 vector)
     w NAMES SORT TREE ROOM          write one into ROOM bytes
     f FILE ROOM ROOM ROOM           read a trace into so many bytes of names, times and states
     g NAMES TIMES STATES N ROOM     write a trace (TIMES eight bytes each, low first)
     c NAMES N STATES ROW            changes of a row (from here on NAMES is a number)
     v NAMES N TREE STATES ROOM      values of all rows
     s NAMES N TREE STATES ROW       a row's state and value
     a NAMES N TREE STATES ROW       a row's answer as written
     b NAMES N TREE STATES A B       the answer on a window of rows
     r NAMES N TREE STATES TIMES ROW a row's answer by alternatives, its tries, and where its match began
     m NAMES N TREE STATES TIMES ROOM ROOM ROOM ROOM   answers, tries, flags and times of all rows
     t NAMES N TREE STATES           totals
     k NAMES N TREE STATES ANSWERS ROW NEW   correction of a row
     l NAMES TREE ROOM ROOM ROOM ROOM   the lists of alternatives: steps, tests, edges, ends of operands
     x NAMES TREE ROOM               a flag for each contradictory alternative
     q NAMES TREE KEPT HELD CLOCK SIZE STATES TIMES   a queue of KEPT rows, the front of its states HELD and of its
                                     times CLOCK, takes rows of SIZE states at TIMES
     F NAMES TREE LISTS              how many LISTS hold, if accepted: STEPS TESTS EDGES OPERANDS, the last two bytes each
     R M T Q                         as r m t q, with LISTS behind TREE
     L NAMES N TREE STATES TIMES ROOM   the listing of a pattern's answers
     H ROOM                          the table's heading
     I NAMES N TREE STATES PATTERN ROOM   its line of a pattern
     J PATTERN NUMBER PLACE ROOM     its line of a pattern that was refused
     K YES UNKNOWN NO PATTERNS EVENTS ROOM   its last line
   An answer is a line too: `refused NUMBER PLACE` or what the call gave, for a text `of` and how many bytes are refused,
   then a sum over all lent memory. */
#ifndef LINES_H
#define LINES_H
#include <stdint.h>
#include <stdio.h>

typedef struct { uint8_t *at; long length; } Bytes;

int next_line(void);              /* its letter, or EOF */
long take_number(void);
uint64_t take_wide(void);         /* a number of 64 bits */
Bytes take_bytes(void);           /* valid until the next line */
Bytes lend(long length);          /* memory with a pattern in it, valid until the next line */
uint64_t sum_of(uint64_t sum, const void *at, long length);
void say_refused(int number, unsigned long place);
void say_bytes(const uint8_t *at, long length);
void end_line(uint64_t sum);
#endif
