/* Whole numbers of a format through the archive: against the words of docs/promises/whole.md over 128-bit integers, and the documentation's
 * examples by hand. */
#include "operation.h"

/* The least integer that is not below n / d; d is positive. */
static integer ceiling_of(integer n, integer d)
{
    return n / d + (n % d > 0);
}

static exact rounded_down(question q)
{
    return whole(q, floor_of(q.a, one(q)));
}

static exact rounded_up(question q)
{
    return whole(q, ceiling_of(q.a, one(q)));
}

/* The nearer of the whole numbers below and above; where both are as near, what the rule for ties has chosen of them. */
static exact nearer(question q, integer below, integer above, integer at_tie)
{
    integer down = q.a - below * one(q), up = above * one(q) - q.a;
    return whole(q, down < up ? below : up < down ? above : at_tie);
}

static exact rounded_away(question q)
{
    integer below = floor_of(q.a, one(q)), above = ceiling_of(q.a, one(q));
    return nearer(q, below, above, q.a < 0 ? below : above);
}

static exact rounded_even(question q)
{
    integer below = floor_of(q.a, one(q)), above = ceiling_of(q.a, one(q));
    return nearer(q, below, above, below % 2 == 0 ? below : above);
}

static exact integer_part(question q)
{
    return q.in.frac == q.in.width ? exactly(0) : rounded_down(q);
}

static exact fraction(question q)
{
    return exactly(q.in.frac == q.in.width ? q.a : q.a - floor_of(q.a, one(q)) * one(q));
}

CALL(floor, ONE)
CALL(ceil, ONE)
CALL(round, ONE)
CALL(round_ties_even, ONE)
CALL(int, ONE)
CALL(frac, ONE)

static const operation operations[] = {
    {"floor", 1, 0, call_floor, rounded_down},
    {"ceil", 1, 0, call_ceil, rounded_up},
    {"round", 1, 0, call_round, rounded_away},
    {"round_ties_even", 1, 0, call_round_ties_even, rounded_even},
    {"int", 1, 0, call_int, integer_part},
    {"frac", 1, 0, call_frac, fraction},
};

/* The examples of the documentation in src/wrapping.rs. In I16F16 one is 65536 steps. */
static void examples(void)
{
    on_signed("12.25 has 12", tq_int_signed(802816, 32, 16, TQ_WRAPPING), 0, 0, 786432);
    on_signed("-12.25 has -13", tq_int_signed(-802816, 32, 16, TQ_WRAPPING), 0, 0, -851968);
    on_signed("12.25 leaves 0.25", tq_frac_signed(802816, 32, 16, TQ_WRAPPING), 0, 0, 16384);
    on_signed("-12.25 leaves 0.75", tq_frac_signed(-802816, 32, 16, TQ_WRAPPING), 0, 0, 49152);
    on_signed("I0F16: -0.25 has 0", tq_int_signed(-16384, 16, 16, TQ_STRICT), 0, 0, 0);
    on_signed("I0F16: -0.25 leaves itself", tq_frac_signed(-16384, 16, 16, TQ_STRICT), 0, 0, -16384);
    on_signed("2.5 up", tq_ceil_signed(163840, 32, 16, TQ_WRAPPING), 0, 0, 196608);
    on_signed("the maximum up", tq_ceil_signed(INT32_MAX, 32, 16, TQ_WRAPPING), 0, 0, INT32_MIN);
    on_signed("2.5 down", tq_floor_signed(163840, 32, 16, TQ_WRAPPING), 0, 0, 131072);
    on_signed("I0F32: the minimum down", tq_floor_signed(INT32_MIN, 32, 32, TQ_WRAPPING), 0, 0, 0);
    on_signed("2.5 to the nearest", tq_round_signed(163840, 32, 16, TQ_WRAPPING), 0, 0, 196608);
    on_signed("-2.5 to the nearest", tq_round_signed(-163840, 32, 16, TQ_WRAPPING), 0, 0, -196608);
    on_signed("the maximum to the nearest", tq_round_signed(INT32_MAX, 32, 16, TQ_WRAPPING), 0, 0, INT32_MIN);
    on_signed("2.5 to even", tq_round_ties_even_signed(163840, 32, 16, TQ_WRAPPING), 0, 0, 131072);
    on_signed("3.5 to even", tq_round_ties_even_signed(229376, 32, 16, TQ_WRAPPING), 0, 0, 262144);
    on_signed("the maximum to even", tq_round_ties_even_signed(INT32_MAX, 32, 16, TQ_WRAPPING), 0, 0, INT32_MIN);
}

/* What does not fit, in each manner; a number that is no manner is strict. */
static void manners(void)
{
    on_signed("up: strict", tq_ceil_signed(INT32_MAX, 32, 16, TQ_STRICT), TQ_OVERFLOW, 0, 0);
    on_signed("up: held", tq_ceil_signed(INT32_MAX, 32, 16, TQ_SATURATING), 0, 0, INT32_MAX);
    on_signed("up: flag", tq_ceil_signed(INT32_MAX, 32, 16, TQ_OVERFLOWING), 0, 1, INT32_MIN);
    on_signed("up: 4", tq_ceil_signed(INT32_MAX, 32, 16, 4), TQ_OVERFLOW, 0, 0);
    on_signed("up: 2^32 - 1", tq_ceil_signed(INT32_MAX, 32, 16, UINT32_MAX), TQ_OVERFLOW, 0, 0);
    on_signed("up: 4, and fits", tq_ceil_signed(1, 32, 16, 4), 0, 0, 65536);
    on_signed("I0F32: the minimum down, held", tq_floor_signed(INT32_MIN, 32, 32, TQ_SATURATING), 0, 0, INT32_MIN);
    on_signed("I0F64: a step below 0 down", tq_floor_signed(-1, 64, 64, TQ_OVERFLOWING), 0, 1, 0);
    on_signed("I0F64: a step below 0 down, held", tq_floor_signed(-1, 64, 64, TQ_SATURATING), 0, 0, INT64_MIN);
    on_signed("I0F64: -0.5 away from zero", tq_round_signed(INT64_MIN, 64, 64, TQ_STRICT), TQ_OVERFLOW, 0, 0);
    on_signed("I0F64: -0.5 to even", tq_round_ties_even_signed(INT64_MIN, 64, 64, TQ_STRICT), 0, 0, 0);
    on_unsigned("U0F64: 0.5 up", tq_ceil_unsigned(UINT64_C(1) << 63, 64, 64, TQ_STRICT), TQ_OVERFLOW, 0, 0);
    on_unsigned("U0F64: 0.5 up, flag", tq_ceil_unsigned(UINT64_C(1) << 63, 64, 64, TQ_OVERFLOWING), 0, 1, 0);
    on_unsigned("U0F64: 0.5 up, held", tq_ceil_unsigned(UINT64_C(1) << 63, 64, 64, TQ_SATURATING), 0, 0, UINT64_MAX);
    on_unsigned("U1F63: the maximum to even", tq_round_ties_even_unsigned(UINT64_MAX, 64, 63, TQ_OVERFLOWING), 0, 1, 0);
}

/* An operand is the number that it is, also where the format could not hold it: 1000 steps in 8 bits. */
static void past_the_format(void)
{
    on_signed("1000: strict", tq_floor_signed(1000, 8, 0, TQ_STRICT), TQ_OVERFLOW, 0, 0);
    on_signed("1000: held", tq_floor_signed(1000, 8, 0, TQ_SATURATING), 0, 0, 127);
    on_signed("1000: wrapped", tq_floor_signed(1000, 8, 0, TQ_WRAPPING), 0, 0, -24);
    on_unsigned("1000: flag", tq_floor_unsigned(1000, 8, 0, TQ_OVERFLOWING), 0, 1, 232);
    on_signed("1000: fraction", tq_frac_signed(1000, 8, 4, TQ_STRICT), 0, 0, 8);
    on_signed("-1000: fraction", tq_frac_signed(-1001, 8, 4, TQ_STRICT), 0, 0, 7);
    on_unsigned("1000: no integer bits", tq_int_unsigned(1000, 8, 8, TQ_STRICT), 0, 0, 0);
}

static void refusals(void)
{
    on_signed("no width", tq_floor_signed(1, 12, 0, TQ_STRICT), TQ_WRONG_WIDTH, 0, 0);
    on_unsigned("no width, saturating", tq_ceil_unsigned(1, 128, 0, TQ_SATURATING), TQ_WRONG_WIDTH, 0, 0);
    on_signed("no frac", tq_round_signed(1, 16, 17, TQ_WRAPPING), TQ_WRONG_FRAC, 0, 0);
    on_unsigned("no frac, overflowing", tq_frac_unsigned(1, 64, 65, TQ_OVERFLOWING), TQ_WRONG_FRAC, 0, 0);
    on_signed("width before frac", tq_int_signed(1, 0, 1, TQ_STRICT), TQ_WRONG_WIDTH, 0, 0);
    on_signed("frac before overflow", tq_ceil_signed(INT64_MAX, 8, 9, TQ_STRICT), TQ_WRONG_FRAC, 0, 0);
}

int main(void)
{
    for (size_t i = 0; i < COUNT(operations); i++) {
        every_raw_of_8_bits(&operations[i]);
        every_corner(&operations[i]);
        every_fault(&operations[i]);
    }
    examples();
    manners();
    past_the_format();
    refusals();
    return finish();
}
