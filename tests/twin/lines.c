/* Cases in, answers out: see lines.h. */
#include "lines.h"
#include <stdlib.h>
#include <string.h>

static char *line;
static size_t room;
static char *rest;
static void *held[32];
static int holds;

int next_line(void)
{
    while (holds > 0) free(held[--holds]);
    if (getline(&line, &room, stdin) < 0) return EOF;
    rest = line + 1;
    return line[0];
}

long take_number(void) { return strtol(rest, &rest, 10); }
uint64_t take_wide(void) { return strtoull(rest, &rest, 10); }

/* A block of exactly this size, so that a tool that watches memory sees a step past it. */
static uint8_t *hold(long length)
{
    uint8_t *at = malloc(length ? (size_t)length : 1);
    held[holds++] = at;
    return at;
}

static int digit(int c) { return c <= '9' ? c - '0' : c - 'a' + 10; }

Bytes take_bytes(void)
{
    while (*rest == ' ') rest++;
    long n = (long)strcspn(rest, " \n");
    if (*rest == '-') n = 0;
    Bytes out = {hold(n / 2), n / 2};
    for (long i = 0; i < n / 2; i++) out.at[i] = (uint8_t)(16 * digit(rest[2 * i]) + digit(rest[2 * i + 1]));
    rest += *rest == '-' ? 1 : n;
    return out;
}

Bytes lend(long length)
{
    Bytes out = {hold(length), length};
    for (long i = 0; i < length; i++) out.at[i] = (uint8_t)(165 + 7 * i);
    return out;
}

uint64_t sum_of(uint64_t sum, const void *at, long length)
{
    const uint8_t *p = at;
    for (long i = 0; i < length; i++) sum = (sum ^ p[i]) * 1099511628211u + 1;
    return sum;
}

void say_refused(int number, unsigned long place) { printf("refused %d %lu", number, place); }

void say_bytes(const uint8_t *at, long length)
{
    putchar(' ');
    for (long i = 0; i < length; i++) printf("%02x", at[i]);
}

void end_line(uint64_t sum) { printf(" %016llx\n", (unsigned long long)sum); }
