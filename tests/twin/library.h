/* What the files of the library's side share. */
#ifndef LIBRARY_H
#define LIBRARY_H
#include "../../include/dachsmond.h"
#include "calls.h"
#include "lines.h"

/* The rules of every call that takes them: the program's arguments, `equal` and `steady`, set them. */
extern dachsmond_rules rules;

/* Whether a call was refused, which is said; the other fields of what it tells are 0 then. */
bool refused(unsigned number, size_t place, uint64_t others);

/* A row's answer, and all of them in four lists, as the line says them. */
typedef struct { Bytes answers, tried, given, began; } Lent;
#define FOUR(l)                                                                                               \
    l.answers.at, l.answers.length, (uint32_t *)l.tried.at, l.tried.length / 4, l.given.at, l.given.length,   \
        (uint64_t *)l.began.at, l.began.length / 8
Lent lend_four(void);
void say_matched(dachsmond_matched r);
void say_all(dachsmond_told r, Lent l);
#endif
