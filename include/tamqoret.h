/* Tamqoret: proved fixed-point numbers for hearing aids. Link with libcapi.a (`tools/archive capi`).
 *
 * A format is a width (8, 16, 32 or 64), signed or unsigned by the function's name, and frac fraction bits, 0 to the
 * width. A raw r stands for r / 2^frac.
 *
 * Every call answers: number is 0 where it is done, else the refusal. A refusal has flag 0 and value 0.
 *
 * A lent buffer is a pointer and a number of places. The buffers of one call must not overlap, unless its function says
 * otherwise; two that are only read may. */
#ifndef TAMQORET_H
#define TAMQORET_H

#include <stddef.h>
#include <stdint.h>

#ifdef __cplusplus
extern "C" {
#endif

typedef struct {
    uint32_t number; /* 0: done; else the refusal, below */
    uint32_t flag;   /* 1: the result did not fit (overflowing manner only); else 0 */
    int64_t value;
} tq_signed;

typedef struct {
    uint32_t number;
    uint32_t flag;
    uint64_t value;
} tq_unsigned;

/* manner: what becomes of a result that does not fit. Any other number is strict. */
enum {
    TQ_STRICT = 0,      /* refused with TQ_OVERFLOW */
    TQ_SATURATING = 1,  /* the nearer end of the range */
    TQ_WRAPPING = 2,    /* the raw congruent modulo 2^width */
    TQ_OVERFLOWING = 3  /* the same, and the flag */
};

/* refusals */
enum {
    TQ_DONE = 0,
    TQ_WRONG_WIDTH = 1,    /* the width is not 8, 16, 32 or 64 */
    TQ_WRONG_FRAC = 2,     /* more fraction bits than the width */
    TQ_WRONG_RADIX = 3,    /* the radix is not 2, 8, 10 or 16 */
    TQ_TOO_LONG = 4,       /* a text above 4096 bytes, a fitting file above 16384 */
    TQ_WRONG_LENGTH = 5,   /* a buffer too small, or lists of unequal length */
    TQ_OVERFLOW = 10,      /* the result does not fit; strict manner only */
    TQ_NO_DIGITS = 11,     /* no digit before the exponent's mark */
    TQ_MISPLACED_SIGN = 12,
    TQ_INVALID_DIGIT = 13,
    TQ_MISPLACED_UNDERSCORE = 14,
    TQ_TOO_MANY_POINTS = 15,
    TQ_EXP_INVALID_DIGIT = 16,
    TQ_EXP_NO_DIGITS = 17, /* a mark with no digit after it */
    TQ_TOO_MANY_EXP = 18,
    TQ_EXP_OVERFLOW = 19,  /* the exponent is outside -2^31 to 2^31 - 1 */
    TQ_NOT_A_NUMBER = 30,  /* NaN, or an infinity outside the saturating manner */
    TQ_ZERO_DIVISOR = 31,
    TQ_NOT_POSITIVE = 32,  /* logarithm of zero or of a negative number */
    TQ_WRONG_TAPS = 40,    /* taps not 1 to 64; a fitting file without a value */
    TQ_TOO_MANY_VALUES = 41, /* a fitting file with more than 64 values */
    TQ_REFUSED_LINE = 42   /* a line of a fitting file is refused */
};

/* An exact whole number of steps into a format: the magnitude is high * 2^64 + low, negative unless neg is 0. */
tq_signed tq_settle_signed(uint32_t neg, uint64_t high, uint64_t low, uint32_t width, uint32_t frac, uint32_t manner);
tq_unsigned tq_settle_unsigned(uint32_t neg, uint64_t high, uint64_t low, uint32_t width, uint32_t frac, uint32_t manner);

/* The nearest number of the format to the number written, ties to even. The plain reader is told the radix; the literal reader is strict, takes
 * 0b, 0o and 0x in lower case, and skips _ between digits. docs/GRAMMAR.md says which texts are numbers. */
tq_signed tq_read_signed(const uint8_t *text, size_t len, uint32_t width, uint32_t frac, uint32_t radix, uint32_t manner);
tq_unsigned tq_read_unsigned(const uint8_t *text, size_t len, uint32_t width, uint32_t frac, uint32_t radix, uint32_t manner);
tq_signed tq_literal_signed(const uint8_t *text, size_t len, uint32_t width, uint32_t frac);
tq_unsigned tq_literal_unsigned(const uint8_t *text, size_t len, uint32_t width, uint32_t frac);

/* The exact decimal text of a raw, into out: `-` if negative, no leading zeros, a point and digits only for a fraction, no trailing zero; at most 67
 * bytes. The value is the number of bytes written; bytes after them stay. TQ_WRONG_LENGTH where out is too short, and then it is unchanged.
 * tq_read_* of the text, in radix 10, gives the same raw. */
tq_unsigned tq_write_signed(int64_t raw, uint32_t width, uint32_t frac, uint8_t *out, size_t len);
tq_unsigned tq_write_unsigned(uint64_t raw, uint32_t width, uint32_t frac, uint8_t *out, size_t len);

/* The greatest k with 10^k <= raw / 2^frac, as value; TQ_NOT_POSITIVE where there is none. */
tq_signed tq_log10_signed(int64_t raw, uint32_t width, uint32_t frac);
tq_signed tq_log10_unsigned(uint64_t raw, uint32_t width, uint32_t frac);

/* Arithmetic on raws of one format, in a manner. The exact result is taken first, then the manner: the product is a * b / 2^frac rounded
 * toward minus infinity, the quotient a * 2^frac / b rounded toward zero, the remainder has the dividend's sign. TQ_ZERO_DIVISOR for a zero divisor. */
tq_signed tq_add_signed(int64_t a, int64_t b, uint32_t width, uint32_t frac, uint32_t manner);
tq_unsigned tq_add_unsigned(uint64_t a, uint64_t b, uint32_t width, uint32_t frac, uint32_t manner);
tq_signed tq_sub_signed(int64_t a, int64_t b, uint32_t width, uint32_t frac, uint32_t manner);
tq_unsigned tq_sub_unsigned(uint64_t a, uint64_t b, uint32_t width, uint32_t frac, uint32_t manner);
tq_signed tq_mul_signed(int64_t a, int64_t b, uint32_t width, uint32_t frac, uint32_t manner);
tq_unsigned tq_mul_unsigned(uint64_t a, uint64_t b, uint32_t width, uint32_t frac, uint32_t manner);
tq_signed tq_div_signed(int64_t a, int64_t b, uint32_t width, uint32_t frac, uint32_t manner);
tq_unsigned tq_div_unsigned(uint64_t a, uint64_t b, uint32_t width, uint32_t frac, uint32_t manner);
tq_signed tq_rem_signed(int64_t a, int64_t b, uint32_t width, uint32_t frac, uint32_t manner);
tq_unsigned tq_rem_unsigned(uint64_t a, uint64_t b, uint32_t width, uint32_t frac, uint32_t manner);
tq_signed tq_neg_signed(int64_t a, uint32_t width, uint32_t frac, uint32_t manner);
tq_unsigned tq_neg_unsigned(uint64_t a, uint32_t width, uint32_t frac, uint32_t manner);

/* Whole numbers of a format, in a manner: down, up, to the nearest with ties away from zero, to the nearest with ties to even. The integer part is the
 * number rounded down, and 0 where frac is the width; the fraction is what the integer part leaves. */
tq_signed tq_floor_signed(int64_t a, uint32_t width, uint32_t frac, uint32_t manner);
tq_unsigned tq_floor_unsigned(uint64_t a, uint32_t width, uint32_t frac, uint32_t manner);
tq_signed tq_ceil_signed(int64_t a, uint32_t width, uint32_t frac, uint32_t manner);
tq_unsigned tq_ceil_unsigned(uint64_t a, uint32_t width, uint32_t frac, uint32_t manner);
tq_signed tq_round_signed(int64_t a, uint32_t width, uint32_t frac, uint32_t manner);
tq_unsigned tq_round_unsigned(uint64_t a, uint32_t width, uint32_t frac, uint32_t manner);
tq_signed tq_round_ties_even_signed(int64_t a, uint32_t width, uint32_t frac, uint32_t manner);
tq_unsigned tq_round_ties_even_unsigned(uint64_t a, uint32_t width, uint32_t frac, uint32_t manner);
tq_signed tq_int_signed(int64_t a, uint32_t width, uint32_t frac, uint32_t manner);
tq_unsigned tq_int_unsigned(uint64_t a, uint32_t width, uint32_t frac, uint32_t manner);
tq_signed tq_frac_signed(int64_t a, uint32_t width, uint32_t frac, uint32_t manner);
tq_unsigned tq_frac_unsigned(uint64_t a, uint32_t width, uint32_t frac, uint32_t manner);

/* More arithmetic, in a manner. The sign is -1, 0 or 1, which is 2^frac steps. The Euclidean remainder is not negative and below |b|, the quotient that goes
 * with it a whole number; TQ_ZERO_DIVISOR for a zero divisor. mul_add is a * b / 2^frac rounded toward minus infinity, plus c. The mean is rounded toward
 * minus infinity. */
tq_signed tq_abs_signed(int64_t a, uint32_t width, uint32_t frac, uint32_t manner);
tq_unsigned tq_abs_unsigned(uint64_t a, uint32_t width, uint32_t frac, uint32_t manner);
tq_signed tq_signum_signed(int64_t a, uint32_t width, uint32_t frac, uint32_t manner);
tq_unsigned tq_signum_unsigned(uint64_t a, uint32_t width, uint32_t frac, uint32_t manner);
tq_signed tq_rem_euclid_signed(int64_t a, int64_t b, uint32_t width, uint32_t frac, uint32_t manner);
tq_unsigned tq_rem_euclid_unsigned(uint64_t a, uint64_t b, uint32_t width, uint32_t frac, uint32_t manner);
tq_signed tq_div_euclid_signed(int64_t a, int64_t b, uint32_t width, uint32_t frac, uint32_t manner);
tq_unsigned tq_div_euclid_unsigned(uint64_t a, uint64_t b, uint32_t width, uint32_t frac, uint32_t manner);
tq_signed tq_mul_add_signed(int64_t a, int64_t b, int64_t c, uint32_t width, uint32_t frac, uint32_t manner);
tq_unsigned tq_mul_add_unsigned(uint64_t a, uint64_t b, uint64_t c, uint32_t width, uint32_t frac, uint32_t manner);
tq_signed tq_dist_signed(int64_t a, int64_t b, uint32_t width, uint32_t frac, uint32_t manner);
tq_unsigned tq_dist_unsigned(uint64_t a, uint64_t b, uint32_t width, uint32_t frac, uint32_t manner);
tq_signed tq_mean_signed(int64_t a, int64_t b, uint32_t width, uint32_t frac, uint32_t manner);
tq_unsigned tq_mean_unsigned(uint64_t a, uint64_t b, uint32_t width, uint32_t frac, uint32_t manner);

/* Shifts by the count modulo the width; bits that leave are lost. A count not below the width is TQ_OVERFLOW when strict, and sets the flag
 * when overflowing. There is no saturating shift: TQ_SATURATING is strict here. */
tq_signed tq_shl_signed(int64_t a, uint32_t count, uint32_t width, uint32_t frac, uint32_t manner);
tq_unsigned tq_shl_unsigned(uint64_t a, uint32_t count, uint32_t width, uint32_t frac, uint32_t manner);
tq_signed tq_shr_signed(int64_t a, uint32_t count, uint32_t width, uint32_t frac, uint32_t manner);
tq_unsigned tq_shr_unsigned(uint64_t a, uint32_t count, uint32_t width, uint32_t frac, uint32_t manner);

/* Byte order, on the width / 8 bytes of a raw. The value of tq_to_*_bytes is the number of bytes written; a shorter buffer is TQ_WRONG_LENGTH.
 * tq_from_*_bytes wants exactly width / 8 bytes, else TQ_WRONG_LENGTH. */
tq_signed tq_swap_bytes_signed(int64_t a, uint32_t width, uint32_t frac);
tq_unsigned tq_swap_bytes_unsigned(uint64_t a, uint32_t width, uint32_t frac);
tq_unsigned tq_to_be_bytes_signed(int64_t a, uint32_t width, uint32_t frac, uint8_t *out, size_t len);
tq_unsigned tq_to_be_bytes_unsigned(uint64_t a, uint32_t width, uint32_t frac, uint8_t *out, size_t len);
tq_unsigned tq_to_le_bytes_signed(int64_t a, uint32_t width, uint32_t frac, uint8_t *out, size_t len);
tq_unsigned tq_to_le_bytes_unsigned(uint64_t a, uint32_t width, uint32_t frac, uint8_t *out, size_t len);
tq_signed tq_from_be_bytes_signed(const uint8_t *bytes, size_t len, uint32_t width, uint32_t frac);
tq_unsigned tq_from_be_bytes_unsigned(const uint8_t *bytes, size_t len, uint32_t width, uint32_t frac);
tq_signed tq_from_le_bytes_signed(const uint8_t *bytes, size_t len, uint32_t width, uint32_t frac);
tq_unsigned tq_from_le_bytes_unsigned(const uint8_t *bytes, size_t len, uint32_t width, uint32_t frac);

/* A raw of one format as a raw of another: the number is kept, extra fraction bits are dropped, rounding toward minus infinity, then the manner.
 * TQ_WRONG_WIDTH for either width goes before TQ_WRONG_FRAC for either number of fraction bits. */
tq_signed tq_convert_signed_to_signed(int64_t raw, uint32_t from_width, uint32_t from_frac, uint32_t width, uint32_t frac, uint32_t manner);
tq_unsigned tq_convert_signed_to_unsigned(int64_t raw, uint32_t from_width, uint32_t from_frac, uint32_t width, uint32_t frac, uint32_t manner);
tq_signed tq_convert_unsigned_to_signed(uint64_t raw, uint32_t from_width, uint32_t from_frac, uint32_t width, uint32_t frac, uint32_t manner);
tq_unsigned tq_convert_unsigned_to_unsigned(uint64_t raw, uint32_t from_width, uint32_t from_frac, uint32_t width, uint32_t frac, uint32_t manner);

/* The pattern of the f32 or f64 nearest to a raw's number, ties to even, as value; 0 gives the positive zero. An f32 pattern is below 2^32. */
tq_unsigned tq_to_f32_signed(int64_t raw, uint32_t width, uint32_t frac);
tq_unsigned tq_to_f32_unsigned(uint64_t raw, uint32_t width, uint32_t frac);
tq_unsigned tq_to_f64_signed(int64_t raw, uint32_t width, uint32_t frac);
tq_unsigned tq_to_f64_unsigned(uint64_t raw, uint32_t width, uint32_t frac);

/* An IEEE 754 pattern, binary32 or binary64, as a raw: the number x 2^frac rounded to the nearest, ties to even, then the manner. Both zeros are
 * 0. Saturating takes an infinity to the end of its sign; a NaN, and an infinity in any other manner, is TQ_NOT_A_NUMBER. */
tq_signed tq_from_f32_signed(uint32_t pattern, uint32_t width, uint32_t frac, uint32_t manner);
tq_unsigned tq_from_f32_unsigned(uint32_t pattern, uint32_t width, uint32_t frac, uint32_t manner);
tq_signed tq_from_f64_signed(uint64_t pattern, uint32_t width, uint32_t frac, uint32_t manner);
tq_unsigned tq_from_f64_unsigned(uint64_t pattern, uint32_t width, uint32_t frac, uint32_t manner);

/* The filter's state: the last 64 samples, newest first. All 0 at the start. */
typedef struct {
    int16_t samples[64];
} tq_state;

/* A block through the filter. Taps and samples are signed raws of 16 bits with 15 fraction bits. An output is the exact sum of tap x sample, over
 * 2^15, rounded to the nearest, ties to even, then held to -32768..32767. outputs and clips have a place for each sample (TQ_WRONG_LENGTH
 * otherwise); a clip byte is 1 where the output was held to the range, else 0. The value is the number of outputs that clipped in this
 * block. With a refusal nothing lent is changed. */
tq_unsigned tq_filter(const int16_t *taps, size_t n, tq_state *state, const int16_t *samples, size_t len, int16_t *outputs, size_t out_len,
                      uint8_t *clips, size_t clips_len);

/* Whether the taps can ever clip, whatever the samples. Value 0: never. 1: some samples clip high. 2: none clip high, some clip low.
 * With 1 and 2 witness, of exactly n places, holds samples that do, newest first; with 0 and with a refusal it is unchanged.
 * No taps have the value 2, since ones that clip low clip high as well: do not wait for one. By hand: with A the sum of the taps above 0
 * and B that of the magnitudes of those below, the value is 0 exactly if A + B <= 32767, or A + B = 32768 and B < 16384. */
tq_unsigned tq_headroom(const int16_t *taps, size_t n, int16_t *witness, size_t m);

typedef struct {
    uint32_t number; /* 0: done; else the refusal */
    uint32_t line;   /* with TQ_REFUSED_LINE the number, from 1, of the first refused line; else 0 */
    uint32_t inner;  /* and that line's own refusal; else 0 */
    uint32_t values; /* the value lines of the file; 0 with every refusal */
} tq_file;

/* A fitting file: lines ended by LF, the last may lack it; empty lines and lines that start with # are skipped; each other line is one
 * literal, a signed raw of 16 bits with 15 fraction bits, strict. lines, raws and answers, of one length, are a list with an entry for each
 * such line: its number, its raw (0 where refused) and its answer (0 where not). When done the first taps hold the raws. With
 * TQ_REFUSED_LINE the list holds every value line, and the taps are unchanged; with any other refusal nothing lent is changed. Entries and
 * taps past the last value stay as they were. */
tq_file tq_fitting(const uint8_t *file, size_t len, uint32_t *lines, size_t lines_len, int16_t *raws, size_t raws_len, uint32_t *answers,
                   size_t answers_len, int16_t *taps, size_t taps_len);

#ifdef __cplusplus
}
#endif

#endif
