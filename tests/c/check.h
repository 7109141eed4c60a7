/* A count of checks, for the C tests: each test ends with the line 'N passed, M failed'. The first twenty failures are told. */
#ifndef CHECK_H
#define CHECK_H

#include <stdio.h>
#include "tamqoret.h"

#define COUNT(a) (sizeof(a) / sizeof((a)[0]))

static unsigned long passed, failed;

/* Counts a check; whether it is a failure to be told. */
static inline int to_tell(int ok)
{
    if (ok) {
        passed++;
        return 0;
    }
    return failed++ < 20;
}

/* Says which call went wrong, and what it gave. */
static inline void check(int ok, const char *what, unsigned long long got, unsigned long long want)
{
    if (to_tell(ok))
        printf("%s: got %llu, expected %llu\n", what, got, want);
}

/* A signed answer as an unsigned one: the value's bits. */
static inline tq_unsigned bits_of(tq_signed a)
{
    return (tq_unsigned){a.number, a.flag, (uint64_t)a.value};
}

static inline int alike(tq_unsigned a, tq_unsigned b)
{
    return a.number == b.number && a.flag == b.flag && a.value == b.value;
}

static inline void tell(const char *what, tq_unsigned got, tq_unsigned want)
{
    printf("%s: got number %u, flag %u, value %lld, expected number %u, flag %u, value %lld\n", what, got.number, got.flag,
           (long long)got.value, want.number, want.flag, (long long)want.value);
}

/* Number, flag and value of an answer, in one check. */
static inline void same(const char *what, tq_unsigned got, tq_unsigned want)
{
    if (to_tell(alike(got, want)))
        tell(what, got, want);
}

static inline void on_signed(const char *what, tq_signed a, uint32_t number, uint32_t flag, int64_t value)
{
    same(what, bits_of(a), (tq_unsigned){number, flag, (uint64_t)value});
}

static inline void on_unsigned(const char *what, tq_unsigned a, uint32_t number, uint32_t flag, uint64_t value)
{
    same(what, a, (tq_unsigned){number, flag, value});
}

static inline int finish(void)
{
    printf("%lu passed, %lu failed\n", passed, failed);
    return failed != 0;
}

#endif
