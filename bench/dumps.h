/* A value change dump read: refused with a number at a place, or how many names and rows it has, and how many variables
   were passed over. */
#ifndef DUMPS_H
#define DUMPS_H
#include "measure.h"

typedef struct { uint8_t number; size_t place, names, rows, passed; } Dumped;

/* dump-twin.c: the scope is chosen by its path, `tb.u1`; none where it is empty */
Dumped twin_dump(const uint8_t *file, size_t length, const char *path, Trace *t);
#endif
