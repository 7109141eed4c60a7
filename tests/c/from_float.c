/* The cases of crates/from_float/specs/Cases.antt through the archive: a pattern, a manner, a format and the answer. */
#include "check.h"
#include "tamqoret.h"

typedef struct {
    int bits;         /* of the pattern: 32 or 64 */
    uint64_t pattern;
    uint32_t manner;
    int is_signed;
    uint32_t width, frac, number, flag;
    int64_t value;    /* of an unsigned format: its bits */
} row;

static const row rows[] = {
    /* "Both zeros give 0" */
    {32, UINT64_C(0x00000000), TQ_STRICT, 1, 8, 4, 0, 0, 0},
    {32, UINT64_C(0x80000000), TQ_STRICT, 1, 8, 4, 0, 0, 0},
    {64, UINT64_C(0x0000000000000000), TQ_STRICT, 0, 8, 4, 0, 0, 0},
    {64, UINT64_C(0x8000000000000000), TQ_STRICT, 0, 8, 4, 0, 0, 0},
    /* 1.0 and -1.0; I1F15 holds -1 and not 1 */
    {32, UINT64_C(0x3f800000), TQ_STRICT, 1, 8, 4, 0, 0, 16},
    {64, UINT64_C(0x3ff0000000000000), TQ_STRICT, 1, 64, 32, 0, 0, INT64_C(4294967296)},
    {32, UINT64_C(0xbf800000), TQ_STRICT, 1, 16, 15, 0, 0, -32768},
    {32, UINT64_C(0x3f800000), TQ_STRICT, 1, 16, 15, 10, 0, 0},
    {32, UINT64_C(0x3f800000), TQ_OVERFLOWING, 1, 16, 15, 0, 1, -32768},
    {64, UINT64_C(0x3ff0000000000000), TQ_STRICT, 0, 64, 64, 10, 0, 0},
    /* -0.4 and -0.6 into an unsigned format at F = 0: rounded first and fitted then */
    {32, UINT64_C(0xbecccccd), TQ_STRICT, 0, 8, 0, 0, 0, 0},
    {64, UINT64_C(0xbfd999999999999a), TQ_OVERFLOWING, 0, 8, 0, 0, 0, 0},
    {32, UINT64_C(0xbf19999a), TQ_STRICT, 0, 8, 0, 10, 0, 0},
    {64, UINT64_C(0xbfe3333333333333), TQ_OVERFLOWING, 0, 8, 0, 0, 1, 255},
    /* ties go to even, also where the odd bit is in the integer: 0.5, 1.5, 2.5, -2.5, and 127.5 past the end; beside the tie there is no tie */
    {32, UINT64_C(0x3f000000), TQ_STRICT, 1, 8, 0, 0, 0, 0},
    {32, UINT64_C(0x3fc00000), TQ_STRICT, 1, 8, 0, 0, 0, 2},
    {32, UINT64_C(0x40200000), TQ_STRICT, 1, 8, 0, 0, 0, 2},
    {64, UINT64_C(0xc004000000000000), TQ_STRICT, 1, 8, 0, 0, 0, -2},
    {32, UINT64_C(0x42ff0000), TQ_STRICT, 1, 8, 0, 10, 0, 0},
    {32, UINT64_C(0x42ff0000), TQ_WRAPPING, 1, 8, 0, 0, 0, -128},
    {32, UINT64_C(0x42ff0000), TQ_SATURATING, 1, 8, 0, 0, 0, 127},
    {64, UINT64_C(0x4004000000000001), TQ_STRICT, 1, 8, 0, 0, 0, 3},
    {64, UINT64_C(0x3fe0000000000001), TQ_STRICT, 1, 8, 0, 0, 0, 1},
    /* the least subnormal number, the largest one and the least normal one are below half of the least step */
    {32, UINT64_C(0x00000001), TQ_STRICT, 0, 64, 64, 0, 0, 0},
    {32, UINT64_C(0x807fffff), TQ_STRICT, 0, 64, 64, 0, 0, 0},
    {64, UINT64_C(0x000fffffffffffff), TQ_OVERFLOWING, 1, 64, 64, 0, 0, 0},
    {64, UINT64_C(0x0010000000000000), TQ_STRICT, 1, 64, 64, 0, 0, 0},
    /* 2^-64 is one step of F = 64, 2^-65 a tie, and the number after that one step */
    {32, UINT64_C(0x1f800000), TQ_STRICT, 0, 64, 64, 0, 0, 1},
    {32, UINT64_C(0x1f000000), TQ_STRICT, 0, 64, 64, 0, 0, 0},
    {32, UINT64_C(0x1f000001), TQ_STRICT, 0, 64, 64, 0, 0, 1},
    /* the largest finite numbers, 2^128 - 2^104 and 2^1024 - 2^971, end in zeros */
    {32, UINT64_C(0x7f7fffff), TQ_STRICT, 0, 64, 0, 10, 0, 0},
    {32, UINT64_C(0x7f7fffff), TQ_WRAPPING, 0, 64, 0, 0, 0, 0},
    {64, UINT64_C(0xffefffffffffffff), TQ_SATURATING, 1, 64, 0, 0, 0, INT64_MIN},
    {64, UINT64_C(0x7fefffffffffffff), TQ_OVERFLOWING, 1, 64, 64, 0, 1, 0},
    /* 2^63 and the number before it: the ends of 64 bits */
    {64, UINT64_C(0x43e0000000000000), TQ_STRICT, 1, 64, 0, 10, 0, 0},
    {64, UINT64_C(0xc3e0000000000000), TQ_STRICT, 1, 64, 0, 0, 0, INT64_MIN},
    {64, UINT64_C(0x43dfffffffffffff), TQ_STRICT, 1, 64, 0, 0, 0, INT64_C(9223372036854774784)},
    /* the infinities: to the end of the sign, or 30 */
    {32, UINT64_C(0x7f800000), TQ_SATURATING, 1, 8, 4, 0, 0, 127},
    {32, UINT64_C(0xff800000), TQ_SATURATING, 1, 8, 4, 0, 0, -128},
    {64, UINT64_C(0x7ff0000000000000), TQ_SATURATING, 0, 64, 0, 0, 0, -1},
    {64, UINT64_C(0xfff0000000000000), TQ_SATURATING, 0, 64, 0, 0, 0, 0},
    {32, UINT64_C(0x7f800000), TQ_STRICT, 1, 8, 4, 30, 0, 0},
    {32, UINT64_C(0xff800000), TQ_WRAPPING, 1, 8, 4, 30, 0, 0},
    {64, UINT64_C(0x7ff0000000000000), TQ_OVERFLOWING, 0, 8, 4, 30, 0, 0},
    /* NaN, whatever its sign and payload, in every manner; 1 and 2 go first */
    {32, UINT64_C(0x7fc00000), TQ_STRICT, 1, 8, 4, 30, 0, 0},
    {32, UINT64_C(0xffffffff), TQ_SATURATING, 1, 8, 4, 30, 0, 0},
    {32, UINT64_C(0x7f800001), TQ_WRAPPING, 0, 8, 4, 30, 0, 0},
    {64, UINT64_C(0x7ff0000000000001), TQ_OVERFLOWING, 1, 64, 0, 30, 0, 0},
    {64, UINT64_C(0xfff8000000000000), TQ_SATURATING, 0, 64, 0, 30, 0, 0},
    {32, UINT64_C(0x7fc00000), TQ_STRICT, 1, 9, 10, 1, 0, 0},
    {64, UINT64_C(0x7ff0000000000000), TQ_STRICT, 0, 8, 9, 2, 0, 0},
};

static tq_unsigned answer(const row *r)
{
    uint32_t narrow = (uint32_t)r->pattern;
    if (r->is_signed)
        return bits_of(r->bits == 32 ? tq_from_f32_signed(narrow, r->width, r->frac, r->manner)
                                     : tq_from_f64_signed(r->pattern, r->width, r->frac, r->manner));
    return r->bits == 32 ? tq_from_f32_unsigned(narrow, r->width, r->frac, r->manner)
                         : tq_from_f64_unsigned(r->pattern, r->width, r->frac, r->manner);
}

int main(void)
{
    for (size_t i = 0; i < COUNT(rows); i++) {
        char what[32];
        snprintf(what, sizeof what, "row %zu", i);
        on_unsigned(what, answer(&rows[i]), rows[i].number, rows[i].flag, (uint64_t)rows[i].value);
    }
    return finish();
}
