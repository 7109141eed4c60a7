/* Document 01's formats and manners over 128-bit integers: the answer for an exact number of steps. */
#ifndef MODEL_H
#define MODEL_H

#include "check.h"

typedef __int128 integer;
typedef unsigned __int128 natural;

typedef struct {
    int is_signed;
    uint32_t width, frac, manner;
} format;

/* Products and quotients of two words, in steps, are past the integers on either side, so a number is a sign and a size. */
typedef struct {
    int neg;
    natural size;
} exact;

static inline exact exactly(integer z)
{
    return z < 0 ? (exact){1, -(natural)z} : (exact){0, (natural)z};
}

static inline integer least(format f)
{
    return f.is_signed ? -((integer)1 << (f.width - 1)) : 0;
}

static inline integer greatest(format f)
{
    return ((integer)1 << (f.is_signed ? f.width - 1 : f.width)) - 1;
}

static inline tq_unsigned refused(uint32_t number)
{
    return (tq_unsigned){number, 0, 0};
}

/* The refusal of a format, 0 for none. */
static inline uint32_t fault_of(format f)
{
    if (f.width != 8 && f.width != 16 && f.width != 32 && f.width != 64)
        return TQ_WRONG_WIDTH;
    return f.frac > f.width ? TQ_WRONG_FRAC : TQ_DONE;
}

/* The bits of the raw congruent to x modulo 2^width, sign-extended to 64 for a signed format. */
static inline uint64_t wrapped(format f, exact x)
{
    natural count = (natural)1 << f.width, raw = (x.neg ? -x.size : x.size) & (count - 1);
    return (uint64_t)(f.is_signed && raw >= count / 2 ? raw - count : raw);
}

/* A number in a format that is one. */
static inline tq_unsigned settled(format f, exact x)
{
    integer end = x.neg ? least(f) : greatest(f);
    int fits = x.size <= exactly(end).size;
    switch (f.manner) {
    case TQ_SATURATING:
        return (tq_unsigned){0, 0, fits ? wrapped(f, x) : (uint64_t)end};
    case TQ_WRAPPING:
        return (tq_unsigned){0, 0, wrapped(f, x)};
    case TQ_OVERFLOWING:
        return (tq_unsigned){0, !fits, wrapped(f, x)};
    default:
        return fits ? (tq_unsigned){0, 0, wrapped(f, x)} : refused(TQ_OVERFLOW);
    }
}

#endif
