/* An operation of the archive on raws of one format, held against its meaning: on every raw of 8 bits, on the corners of every format, on what is no
 * format and no manner. */
#ifndef OPERATION_H
#define OPERATION_H

#include "model.h"

typedef struct {
    format in;
    integer a, b, c;
} question;

typedef struct {
    const char *name;
    int operands, divides; /* by b */
    tq_unsigned (*call)(question);
    exact (*meaning)(question); /* of a format that is one, and a divisor that is not 0 */
} operation;

/* CALL(NAME, ONE) makes call_NAME, which asks tq_NAME_signed or tq_NAME_unsigned, as the format says. */
#define ONE(type) (type)q.a
#define TWO(type) (type)q.a, (type)q.b
#define THREE(type) (type)q.a, (type)q.b, (type)q.c
#define FORMAT q.in.width, q.in.frac, q.in.manner
#define CALL(name, OPERANDS)                                                                     \
    static tq_unsigned call_##name(question q)                                                   \
    {                                                                                            \
        return q.in.is_signed ? bits_of(tq_##name##_signed(OPERANDS(int64_t), FORMAT))           \
                              : tq_##name##_unsigned(OPERANDS(uint64_t), FORMAT);                \
    }

/* The number one, in steps, and a whole number. */
static inline integer one(question q)
{
    return (integer)1 << q.in.frac;
}

static inline exact whole(question q, integer z)
{
    exact x = exactly(z);
    return (exact){x.neg, x.size << q.in.frac};
}

/* The greatest integer that is not above n / d; d is positive. */
static inline integer floor_of(integer n, integer d)
{
    return n / d - (n % d < 0);
}

static inline void compare(const operation *op, question q, tq_unsigned want)
{
    tq_unsigned got = op->call(q);
    if (!to_tell(alike(got, want)))
        return;
    printf("tq_%s_%s(%lld", op->name, q.in.is_signed ? "signed" : "unsigned", (long long)q.a);
    if (op->operands > 1)
        printf(", %lld", (long long)q.b);
    if (op->operands > 2)
        printf(", %lld", (long long)q.c);
    printf(", %u, %u, %u)", q.in.width, q.in.frac, q.in.manner);
    tell("", got, want);
}

/* In four manners, from the question's on. */
static inline void ask(const operation *op, question q)
{
    uint32_t fault = fault_of(q.in);
    if (fault == TQ_DONE && op->divides && q.b == 0)
        fault = TQ_ZERO_DIVISOR;
    exact x = fault == TQ_DONE ? op->meaning(q) : exactly(0);
    for (int i = 0; i < 4; i++, q.in.manner++)
        compare(op, q, fault == TQ_DONE ? settled(q.in, x) : refused(fault));
}

/* Every list of operands out of n numbers. */
static inline void ask_all(const operation *op, format in, const integer *numbers, size_t n)
{
    for (size_t i = 0; i < n; i++)
        for (size_t j = 0; j < (op->operands > 1 ? n : 1); j++)
            for (size_t k = 0; k < (op->operands > 2 ? n : 1); k++)
                ask(op, (question){in, numbers[i], numbers[j], numbers[k]});
}

static inline void every_raw_of_8_bits(const operation *op)
{
    for (int s = 0; s < 2; s++)
        for (uint32_t frac = 0; frac <= 8; frac++) {
            format in = {s, 8, frac, TQ_STRICT};
            integer raws[256];
            for (int i = 0; i < 256; i++)
                raws[i] = least(in) + i;
            ask_all(op, in, raws, 256);
        }
}

enum { MOST_CORNERS = 11 * 2 * 3 };

/* The ends of the format and of the word (an operand is the number that it is, also where the format could not hold it), 0, one step, and the whole
 * numbers and halves from 0.5 to 2.5, of both signs; where near is 1, also what is a step beside them. */
static inline size_t corners(format in, int near, integer *out)
{
    format word = {in.is_signed, 64, 0, TQ_STRICT};
    integer unit = (integer)1 << in.frac, half = unit / 2;
    const integer middles[] = {0, 1, half, unit, unit + half, 2 * unit, 2 * unit + half, least(in), greatest(in), least(word), greatest(word)};
    size_t n = 0;
    for (size_t i = 0; i < COUNT(middles); i++)
        for (int sign = -1; sign <= 1; sign += 2)
            for (int beside = -near; beside <= near; beside++) {
                integer x = sign * middles[i] + beside;
                size_t seen = 0;
                while (seen < n && out[seen] != x)
                    seen++;
                if (seen == n && least(word) <= x && x <= greatest(word))
                    out[n++] = x;
            }
    return n;
}

static inline void every_corner(const operation *op)
{
    integer numbers[MOST_CORNERS];
    for (uint32_t width = 8; width <= 64; width *= 2)
        for (uint32_t frac = 0; frac <= width; frac++)
            for (int s = 0; s < 2; s++) {
                format in = {s, width, frac, TQ_STRICT};
                ask_all(op, in, numbers, corners(in, op->operands < 3, numbers));
            }
}

/* Widths and numbers of fraction bits that are none, the width first, and both before a zero divisor; numbers that are no manner. */
static inline void every_fault(const operation *op)
{
    const uint32_t widths[] = {0, 1, 7, 8, 9, 15, 16, 17, 31, 32, 33, 63, 64, 65, 128, 264, UINT32_MAX};
    const uint32_t manners[] = {TQ_STRICT, TQ_OVERFLOWING + 1, UINT32_MAX - 3};
    const integer numbers[] = {0, 1, INT64_MAX / 2, INT64_MAX};
    for (size_t i = 0; i < COUNT(widths); i++) {
        const uint32_t fracs[] = {0, widths[i], widths[i] + 1, widths[i] + 256, UINT32_MAX};
        for (size_t j = 0; j < COUNT(fracs); j++)
            for (size_t k = 0; k < COUNT(manners); k++)
                for (int s = 0; s < 2; s++)
                    ask_all(op, (format){s, widths[i], fracs[j], manners[k]}, numbers, COUNT(numbers));
    }
}

#endif
