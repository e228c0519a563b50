/* Random cases, the same ones for the same seed and compiler. What is made is mostly good; `damage` makes the rest. */
#ifndef CASES_H
#define CASES_H
#include <stdint.h>

typedef struct { uint8_t *at; long length, room; } Buffer;

void seed(uint64_t s);
long below(long n);                    /* 0 to n - 1 */
int once_in(long n);                   /* yes once in n times */
void add(Buffer *out, int byte);
void add_text(Buffer *out, const char *text);
void clear(Buffer *out);
void say(const Buffer *bytes);         /* a field of the line */
void damage(Buffer *bytes, const char *alphabet);

long make_names(Buffer *out);          /* slots; how many */
long make_long_names(Buffer *out);     /* slots that are full */
void make_text(Buffer *out, long names, int sort, int size);
void make_soup(Buffer *out, long names);
void make_edge_text(Buffer *out);      /* near a limit */
int make_edge(void);                   /* its number */
void make_tree(Buffer *out, long names, int sort, int size);
void make_edge_tree(Buffer *out, long names, int sort);   /* near a limit */
void make_states(Buffer *out, long n);
long make_times(Buffer *out, long n);
uint64_t time_in(const Buffer *times, long i);
void set_time(Buffer *times, long i, uint64_t t);
void make_rising(Buffer *out, long n);  /* times that rise */
void make_file(Buffer *out);

extern long fixed_rows;                /* 0, or how many rows each trace has */
int any_size(void);
long any_rows(long most);
long room_for(long needed);

/* row-cases.c: calls over rows */
void some_tree(Buffer *out, long names, int sort, int size);
long some_names(void);
void some_rows(Buffer *states, long *names, long *n);
long some_row(long n);
void some_times(Buffer *out, long n);
void say_rooms(long n);                /* of four lists for n rows */
void case_changes(void);
void case_rewrite(int letter);
void case_pattern(int letter);

/* list-cases.c, listing-cases.c: the queue and calls by lists handed in; the listing and the table */
void case_queue(void);
void case_listed(int letter);
void case_listing(int letter);
#endif
