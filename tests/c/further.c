/* More arithmetic through the archive: against the words of docs/promises/further.md over 128-bit integers, and the documentation's examples by
 * hand. */
#include "operation.h"

static integer absolute(integer z)
{
    return z < 0 ? -z : z;
}

static exact size(question q)
{
    return exactly(absolute(q.a));
}

static exact sign(question q)
{
    return whole(q, (q.a > 0) - (q.a < 0));
}

/* "not negative and below |b|" */
static integer rest(question q)
{
    integer r = q.a % q.b;
    return r < 0 ? r + absolute(q.b) : r;
}

static exact euclidean_rest(question q)
{
    return exactly(rest(q));
}

/* "the quotient that goes with it a whole number" */
static exact euclidean_quotient(question q)
{
    return whole(q, (q.a - rest(q)) / q.b);
}

/* Of numbers that are not negative the product may be past the integers. */
static exact product_and_sum(question q)
{
    if (q.a >= 0 && q.b >= 0 && q.c >= 0)
        return (exact){0, ((natural)q.a * (natural)q.b >> q.in.frac) + (natural)q.c};
    return exactly(floor_of(q.a * q.b, one(q)) + q.c);
}

static exact distance(question q)
{
    return exactly(absolute(q.a - q.b));
}

static exact middle(question q)
{
    return exactly(floor_of(q.a + q.b, 2));
}

CALL(abs, ONE)
CALL(signum, ONE)
CALL(rem_euclid, TWO)
CALL(div_euclid, TWO)
CALL(mul_add, THREE)
CALL(dist, TWO)
CALL(mean, TWO)

static const operation operations[] = {
    {"abs", 1, 0, call_abs, size},
    {"signum", 1, 0, call_signum, sign},
    {"rem_euclid", 2, 1, call_rem_euclid, euclidean_rest},
    {"div_euclid", 2, 1, call_div_euclid, euclidean_quotient},
    {"dist", 2, 0, call_dist, distance},
    {"mean", 2, 0, call_mean, middle},
};
static const operation mul_add = {"mul_add", 3, 0, call_mul_add, product_and_sum};

/* splitmix64 */
static uint64_t at_random(void)
{
    static uint64_t state = 1;
    uint64_t z = state += 0x9e3779b97f4a7c15;
    z = (z ^ z >> 30) * 0xbf58476d1ce4e5b9;
    z = (z ^ z >> 27) * 0x94d049bb133111eb;
    return z ^ z >> 31;
}

/* A word of any length, small ones as often as large ones. */
static integer any(format in)
{
    uint64_t word = at_random(), shift = at_random() % 64;
    return in.is_signed ? (integer)((int64_t)word >> shift) : (integer)(word >> shift);
}

/* Every two raws of 8 bits with a third at random, and three words at random in every format. */
static void three_at_random(void)
{
    for (int s = 0; s < 2; s++)
        for (uint32_t frac = 0; frac <= 8; frac++) {
            format in = {s, 8, frac, TQ_STRICT};
            for (integer a = least(in); a <= greatest(in); a++)
                for (integer b = least(in); b <= greatest(in); b++)
                    ask(&mul_add, (question){in, a, b, least(in) + at_random() % 256});
        }
    for (uint32_t width = 8; width <= 64; width *= 2)
        for (uint32_t frac = 0; frac <= width; frac++)
            for (int i = 0; i < 2000; i++) {
                format in = {i % 2, width, frac, TQ_STRICT};
                ask(&mul_add, (question){in, any(in), any(in), any(in)});
            }
}

/* The examples of the documentation in src/wrapping.rs. In I16F16 one is 65536 steps. */
static void examples(void)
{
    on_signed("|-5|", tq_abs_signed(-327680, 32, 16, TQ_WRAPPING), 0, 0, 327680);
    on_signed("|minimum|", tq_abs_signed(INT32_MIN, 32, 16, TQ_WRAPPING), 0, 0, INT32_MIN);
    on_signed("sign of -3.9", tq_signum_signed(-255590, 32, 16, TQ_WRAPPING), 0, 0, -65536);
    on_signed("sign of 0", tq_signum_signed(0, 32, 16, TQ_WRAPPING), 0, 0, 0);
    on_signed("sign of 3.9", tq_signum_signed(255590, 32, 16, TQ_WRAPPING), 0, 0, 65536);
    on_signed("I1F31: sign of 0.5", tq_signum_signed(INT32_C(1) << 30, 32, 31, TQ_WRAPPING), 0, 0, INT32_MIN);
    on_signed("I0F32: sign of 0.25", tq_signum_signed(INT32_C(1) << 30, 32, 32, TQ_WRAPPING), 0, 0, 0);
    on_signed("I0F32: sign of -0.5", tq_signum_signed(INT32_MIN, 32, 32, TQ_WRAPPING), 0, 0, 0);
    on_signed("from -1 to 4", tq_dist_signed(-65536, 262144, 32, 16, TQ_WRAPPING), 0, 0, 327680);
    on_signed("from end to end", tq_dist_signed(INT32_MIN, INT32_MAX, 32, 16, TQ_WRAPPING), 0, 0, -1);
    on_signed("between 3 and 4", tq_mean_signed(196608, 262144, 32, 16, TQ_WRAPPING), 0, 0, 229376);
    on_signed("between 3 and -4", tq_mean_signed(196608, -262144, 32, 16, TQ_WRAPPING), 0, 0, -32768);
    on_signed("3 x 0.5 + 4", tq_mul_add_signed(196608, 32768, 262144, 32, 16, TQ_WRAPPING), 0, 0, 360448);
    on_signed("maximum x 3 + maximum", tq_mul_add_signed(INT32_MAX, 196608, INT32_MAX, 32, 16, TQ_WRAPPING), 0, 0, -4);
    on_signed("7.5 by 2", tq_div_euclid_signed(491520, 131072, 32, 16, TQ_WRAPPING), 0, 0, 196608);
    on_signed("7.5 by 2 leaves", tq_rem_euclid_signed(491520, 131072, 32, 16, TQ_WRAPPING), 0, 0, 98304);
    on_signed("-7.5 by 2 leaves", tq_rem_euclid_signed(-491520, 131072, 32, 16, TQ_WRAPPING), 0, 0, 32768);
    /* the one that differs: 131071 is -1 modulo 2^16, docs/DIFFERENCES.md */
    on_signed("maximum by 0.25", tq_div_euclid_signed(INT32_MAX, 16384, 32, 16, TQ_WRAPPING), 0, 0, -65536);
}

/* What the examples leave out: the other manners, the rounding of the mean and of the product, negative divisors, products past the format. */
static void beside(void)
{
    on_signed("|minimum|, strict", tq_abs_signed(INT32_MIN, 32, 16, TQ_STRICT), TQ_OVERFLOW, 0, 0);
    on_signed("|minimum|, held", tq_abs_signed(INT64_MIN, 64, 0, TQ_SATURATING), 0, 0, INT64_MAX);
    on_signed("|minimum|, flag", tq_abs_signed(INT64_MIN, 64, 0, TQ_OVERFLOWING), 0, 1, INT64_MIN);
    on_signed("no manner", tq_abs_signed(INT32_MIN, 32, 16, 4), TQ_OVERFLOW, 0, 0);
    on_unsigned("U0F64: sign of a step", tq_signum_unsigned(1, 64, 64, TQ_SATURATING), 0, 0, UINT64_MAX);
    on_signed("mean down", tq_mean_signed(-1, 0, 8, 0, TQ_STRICT), 0, 0, -1);
    on_unsigned("mean of the largest", tq_mean_unsigned(UINT64_MAX, UINT64_MAX - 1, 64, 0, TQ_STRICT), 0, 0, UINT64_MAX - 1);
    on_signed("product down", tq_mul_add_signed(-1, 1, 0, 8, 4, TQ_STRICT), 0, 0, -1);
    on_signed("256 - 128", tq_mul_add_signed(16, 16, -128, 8, 0, TQ_STRICT), TQ_OVERFLOW, 0, 0);
    on_signed("240 - 128", tq_mul_add_signed(16, 15, -128, 8, 0, TQ_STRICT), 0, 0, 112);
    on_unsigned("the largest product", tq_mul_add_unsigned(UINT64_MAX, UINT64_MAX, UINT64_MAX, 64, 0, TQ_OVERFLOWING), 0, 1, 0);
    on_unsigned("the largest fraction", tq_mul_add_unsigned(UINT64_MAX, UINT64_MAX, 1, 64, 64, TQ_STRICT), 0, 0, UINT64_MAX);
    on_signed("-7 by -2", tq_div_euclid_signed(-7, -2, 8, 0, TQ_STRICT), 0, 0, 4);
    on_signed("-7 by -2 leaves", tq_rem_euclid_signed(-7, -2, 8, 0, TQ_STRICT), 0, 0, 1);
    on_signed("7 by -2", tq_div_euclid_signed(7, -2, 8, 0, TQ_STRICT), 0, 0, -3);
    on_signed("minimum by -1", tq_div_euclid_signed(INT32_MIN, -65536, 32, 16, TQ_OVERFLOWING), 0, 1, INT32_MIN);
    on_signed("minimum by -1 leaves", tq_rem_euclid_signed(INT64_MIN, -1, 64, 0, TQ_STRICT), 0, 0, 0);
    on_unsigned("U0F64: the maximum by a step", tq_div_euclid_unsigned(UINT64_MAX, 1, 64, 64, TQ_OVERFLOWING), 0, 1, 0);
    on_signed("end to end, held", tq_dist_signed(INT64_MIN, INT64_MAX, 64, 0, TQ_SATURATING), 0, 0, INT64_MAX);
}

/* An operand is the number that it is, also where the format could not hold it. */
static void past_the_format(void)
{
    on_signed("between 1000 and -1001", tq_mean_signed(1000, -1001, 8, 0, TQ_STRICT), 0, 0, -1);
    on_unsigned("from 1000 to 990", tq_dist_unsigned(1000, 990, 8, 0, TQ_STRICT), 0, 0, 10);
    on_unsigned("1000 by 300", tq_div_euclid_unsigned(1000, 300, 8, 0, TQ_STRICT), 0, 0, 3);
    on_unsigned("1000 by 300 leaves", tq_rem_euclid_unsigned(1000, 300, 8, 0, TQ_STRICT), 0, 0, 100);
    on_signed("|-1000|", tq_abs_signed(-1000, 8, 0, TQ_WRAPPING), 0, 0, -24);
}

static void refusals(void)
{
    on_signed("no width", tq_abs_signed(1, 12, 0, TQ_STRICT), TQ_WRONG_WIDTH, 0, 0);
    on_unsigned("no frac", tq_mean_unsigned(1, 1, 16, 17, TQ_OVERFLOWING), TQ_WRONG_FRAC, 0, 0);
    on_signed("width before frac", tq_mul_add_signed(1, 1, 1, 0, 1, TQ_SATURATING), TQ_WRONG_WIDTH, 0, 0);
    on_signed("by 0", tq_div_euclid_signed(1, 0, 16, 15, TQ_STRICT), TQ_ZERO_DIVISOR, 0, 0);
    on_signed("by 0, saturating", tq_div_euclid_signed(INT64_MIN, 0, 64, 64, TQ_SATURATING), TQ_ZERO_DIVISOR, 0, 0);
    on_unsigned("by 0, overflowing", tq_rem_euclid_unsigned(1, 0, 8, 8, TQ_OVERFLOWING), TQ_ZERO_DIVISOR, 0, 0);
    on_unsigned("width before 0", tq_rem_euclid_unsigned(1, 0, 9, 10, TQ_STRICT), TQ_WRONG_WIDTH, 0, 0);
    on_signed("frac before 0", tq_div_euclid_signed(1, 0, 8, 9, TQ_WRAPPING), TQ_WRONG_FRAC, 0, 0);
}

int main(void)
{
    for (size_t i = 0; i < COUNT(operations); i++) {
        every_raw_of_8_bits(&operations[i]);
        every_corner(&operations[i]);
        every_fault(&operations[i]);
    }
    three_at_random();
    every_corner(&mul_add);
    every_fault(&mul_add);
    examples();
    beside();
    past_the_format();
    refusals();
    return finish();
}
