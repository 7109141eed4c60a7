/* Every export on its limits: lengths that do not agree, numbers of taps at and past the ends, what a refusal leaves unchanged. */
#include <string.h>
#include "check.h"
#include "tamqoret.h"

enum { MOST = 64 };

static int16_t taps[MOST + 1], samples[8], outputs[8], witness[MOST + 1];
static uint8_t clips[8];

static void headroom(size_t n, size_t m, uint32_t number)
{
    memset(witness, 0x5a, sizeof witness);
    tq_unsigned a = tq_headroom(taps, n, witness, m);
    check(a.number == number, "headroom: number", a.number, number);
    check(a.flag == 0 && (number == 0 || a.value == 0), "headroom: value", a.value, 0);
    if (number != 0)
        for (size_t i = 0; i <= MOST; i++)
            check(witness[i] == 0x5a5a, "headroom: witness touched", i, 0);
}

static void filter(size_t n, size_t len, size_t out_len, size_t clips_len, uint32_t number)
{
    tq_state state;
    memset(&state, 0x11, sizeof state);
    memset(outputs, 0x5a, sizeof outputs);
    memset(clips, 0x5a, sizeof clips);
    tq_unsigned a = tq_filter(taps, n, &state, samples, len, outputs, out_len, clips, clips_len);
    check(a.number == number, "filter: number", a.number, number);
    for (size_t i = 0; number != 0 && i < MOST; i++)
        check(state.samples[i] == 0x1111, "filter: state touched", i, 0);
    for (size_t i = number == 0 ? len : 0; i < 8; i++)
        check(outputs[i] == 0x5a5a && clips[i] == 0x5a, "filter: buffers touched", i, 0);
}

static void log10_limits(void)
{
    const uint32_t widths[] = {0, 7, 8, 16, 32, 64, 65, 4294967295u};
    for (size_t i = 0; i < COUNT(widths); i++) {
        uint32_t w = widths[i], number = w == 8 || w == 16 || w == 32 || w == 64 ? 0 : 1;
        on_signed("log10: width", tq_log10_unsigned(1, w, 0), number, 0, 0);
        on_signed("log10: negative", tq_log10_signed(INT64_MIN, w, 0), number ? number : 32, 0, 0);
        on_signed("log10: zero", tq_log10_unsigned(0, w, 0), number ? number : 32, 0, 0);
        on_signed("log10: frac", tq_log10_unsigned(1, w, w + 1), number ? number : 2, 0, 0);
    }
    on_signed("log10: largest", tq_log10_unsigned(UINT64_MAX, 64, 0), 0, 0, 19);
    on_signed("log10: smallest", tq_log10_unsigned(1, 64, 64), 0, 0, -20);
}

/* The largest raw plus one step in each manner, the least over -1, a zero divisor after the format, shifts at the width, bytes. */
static void arith_limits(void)
{
    on_signed("add: strict", tq_add_signed(32767, 1, 16, 15, TQ_STRICT), TQ_OVERFLOW, 0, 0);
    on_signed("add: saturating", tq_add_signed(32767, 1, 16, 15, TQ_SATURATING), 0, 0, 32767);
    on_signed("add: wrapping", tq_add_signed(32767, 1, 16, 15, TQ_WRAPPING), 0, 0, -32768);
    on_signed("add: overflowing", tq_add_signed(32767, 1, 16, 15, TQ_OVERFLOWING), 0, 1, -32768);
    on_signed("div: least over -1", tq_div_signed(INT64_MIN, -1, 64, 0, TQ_SATURATING), 0, 0, INT64_MAX);
    on_signed("mul: toward minus infinity", tq_mul_signed(-1, 1, 16, 15, TQ_STRICT), 0, 0, -1);
    on_signed("div: toward zero", tq_div_signed(-1, 2, 16, 0, TQ_STRICT), 0, 0, 0);
    on_signed("rem: the dividend's sign", tq_rem_signed(-7, 4, 16, 0, TQ_STRICT), 0, 0, -3);
    on_unsigned("div: by 0", tq_div_unsigned(1, 0, 16, 0, TQ_STRICT), TQ_ZERO_DIVISOR, 0, 0);
    on_unsigned("div: width before 0", tq_div_unsigned(1, 0, 9, 0, TQ_STRICT), TQ_WRONG_WIDTH, 0, 0);
    on_unsigned("rem: frac before 0", tq_rem_unsigned(1, 0, 16, 17, TQ_STRICT), TQ_WRONG_FRAC, 0, 0);
    on_unsigned("shl: by the width", tq_shl_unsigned(1, 8, 8, 0, TQ_STRICT), TQ_OVERFLOW, 0, 0);
    on_unsigned("shl: not saturating", tq_shl_unsigned(1, 8, 8, 0, TQ_SATURATING), TQ_OVERFLOW, 0, 0);
    on_unsigned("shl: modulo the width", tq_shl_unsigned(1, UINT32_MAX, 8, 0, TQ_OVERFLOWING), 0, 1, 128);
    on_unsigned("swap", tq_swap_bytes_unsigned(0x1234, 16, 8), 0, 0, 0x3412);
    uint8_t out[3] = {0x5a, 0x5a, 0x5a};
    on_unsigned("to bytes: room", tq_to_be_bytes_signed(-2, 16, 0, out, 1), TQ_WRONG_LENGTH, 0, 0);
    check(out[0] == 0x5a, "to bytes: touched", out[0], 0x5a);
    on_unsigned("to bytes", tq_to_be_bytes_signed(-2, 16, 0, out, 3), 0, 0, 2);
    check(out[0] == 0xff && out[1] == 0xfe && out[2] == 0x5a, "to bytes: written", out[1], 0xfe);
    on_signed("from bytes", tq_from_be_bytes_signed(out, 2, 16, 0), 0, 0, -2);
    on_signed("from bytes: length", tq_from_be_bytes_signed(out, 3, 16, 0), TQ_WRONG_LENGTH, 0, 0);
}

int main(void)
{
    for (int i = 0; i <= MOST; i++)
        taps[i] = 32767;
    headroom(0, 0, 40);
    headroom(0, 1, 5);
    headroom(1, 0, 5);
    headroom(1, 1, 0);
    headroom(MOST, MOST, 0);
    headroom(MOST, MOST - 1, 5);
    headroom(MOST + 1, MOST + 1, 40);
    filter(0, 4, 4, 4, 40);
    filter(0, 4, 3, 4, 5);
    filter(1, 4, 4, 3, 5);
    filter(1, 4, 4, 4, 0);
    filter(1, 0, 0, 0, 0);
    filter(MOST, 8, 8, 8, 0);
    filter(MOST + 1, 8, 8, 8, 40);
    log10_limits();
    arith_limits();
    return finish();
}
