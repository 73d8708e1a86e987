/* What both files of the header's test use. */
#ifndef HEADER_TEST_H
#define HEADER_TEST_H

#include "castulfrisa.h"
#include <stddef.h>
#include <string.h>

#define WIDE 4294967296u /* 2^32: added to a number, it is lost where 32 bits are kept */
#define FILL 0xa5        /* in what is lent, so that bytes that were written show */
#define COUNT(row) (sizeof row / sizeof row[0])

/* ---- header_test.c */

extern uint64_t method; /* of the exchange at hand, for the line of a failure; 0 where there is none */

void is(int holds, const char *what);

static inline const uint8_t *b(const char *s) { return (const uint8_t *)s; }

static inline int all(const void *at, int byte, size_t len)
{
    size_t i;
    for (i = 0; i < len; i++)
        if (((const uint8_t *)at)[i] != byte) return 0;
    return 1;
}

static inline int part_is(castulfrisa_part p, uint64_t start, uint64_t len) { return p.start == start && p.len == len; }

/* What a call tells, filled before it, with a number behind that is not the call's. */
#define LEND(type, name) struct { type told; uint64_t behind; } name; memset(&name, FILL, sizeof name)
#define AGAIN(name) memset(&name, FILL, sizeof name)
#define KEPT(name) all(&name.behind, FILL, sizeof name.behind)
#define ZERO(name) (all(&name.told, 0, sizeof name.told) && KEPT(name))

/* ---- header_steps.c */

void exchanges(void);

#endif
