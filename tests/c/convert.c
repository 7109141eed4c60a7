/* The cases of crates/convert/specs/Cases.antt and crates/to_float/specs/Cases.antt through the archive; and every I1F15 raw to patterns and a
 * wider format, and back. */
#include "check.h"
#include "tamqoret.h"

static void formats(void)
{
    on_signed("a bit dropped below zero", tq_convert_signed_to_signed(-1, 8, 1, 8, 0, TQ_STRICT), 0, 0, -1);
    on_signed("a bit dropped above zero", tq_convert_signed_to_signed(3, 8, 1, 8, 0, TQ_STRICT), 0, 0, 1);
    on_signed("all bits dropped", tq_convert_signed_to_signed(-1, 64, 64, 64, 0, TQ_STRICT), 0, 0, -1);
    on_unsigned("all bits dropped, unsigned", tq_convert_unsigned_to_unsigned(UINT64_MAX, 64, 64, 64, 0, TQ_STRICT), 0, 0, 0);
    on_signed("finer", tq_convert_signed_to_signed(-32768, 16, 15, 64, 63, TQ_STRICT), 0, 0, INT64_MIN);
    on_signed("coarser", tq_convert_signed_to_signed(1, 64, 63, 16, 15, TQ_STRICT), 0, 0, 0);
    on_unsigned("below unsigned", tq_convert_signed_to_unsigned(-1, 8, 1, 8, 0, TQ_STRICT), TQ_OVERFLOW, 0, 0);
    on_unsigned("held at zero", tq_convert_signed_to_unsigned(-1, 8, 1, 8, 0, TQ_SATURATING), 0, 0, 0);
    on_unsigned("one too large", tq_convert_unsigned_to_unsigned(1, 8, 0, 64, 64, TQ_SATURATING), 0, 0, UINT64_MAX);
    on_unsigned("one wraps", tq_convert_unsigned_to_unsigned(1, 8, 0, 64, 64, TQ_OVERFLOWING), 0, 1, 0);
    on_signed("the largest word", tq_convert_unsigned_to_signed(UINT64_MAX, 64, 1, 64, 0, TQ_STRICT), 0, 0, INT64_MAX);
    on_signed("either width first", tq_convert_signed_to_signed(1, 8, 9, 7, 0, TQ_STRICT), TQ_WRONG_WIDTH, 0, 0);
    on_signed("either frac next", tq_convert_signed_to_signed(1000, 8, 9, 8, 0, TQ_STRICT), TQ_WRONG_FRAC, 0, 0);
}

static void patterns(void)
{
    on_unsigned("zero", tq_to_f32_signed(0, 8, 4), 0, 0, 0);
    on_unsigned("zero, f64", tq_to_f64_unsigned(0, 64, 64), 0, 0, 0);
    on_unsigned("one", tq_to_f32_unsigned(1, 8, 0), 0, 0, 0x3f800000);
    on_unsigned("minus one", tq_to_f32_signed(-32768, 16, 15), 0, 0, 0xbf800000);
    on_unsigned("a step above minus a half", tq_to_f64_signed(-16383, 16, 15), 0, 0, UINT64_C(0xbfdfff8000000000));
    on_unsigned("tie down", tq_to_f32_signed(16777217, 32, 0), 0, 0, 0x4b800000);
    on_unsigned("tie up", tq_to_f32_signed(16777219, 32, 0), 0, 0, 0x4b800002);
    on_unsigned("tie down, f64", tq_to_f64_signed(INT64_C(9007199254740993), 64, 0), 0, 0, UINT64_C(0x4340000000000000));
    on_unsigned("tie up, f64", tq_to_f64_signed(INT64_C(-9007199254740995), 64, 0), 0, 0, UINT64_C(0xc340000000000002));
    on_unsigned("carried", tq_to_f32_unsigned(UINT64_MAX, 64, 0), 0, 0, 0x5f800000);
    on_unsigned("carried, f64", tq_to_f64_unsigned(UINT64_MAX, 64, 64), 0, 0, UINT64_C(0x3ff0000000000000));
    on_unsigned("the least word", tq_to_f64_signed(INT64_MIN, 64, 0), 0, 0, UINT64_C(0xc3e0000000000000));
    on_unsigned("the least step", tq_to_f32_unsigned(1, 64, 64), 0, 0, 0x1f800000);
    on_unsigned("width first", tq_to_f32_signed(1, 9, 10), TQ_WRONG_WIDTH, 0, 0);
    on_unsigned("then frac", tq_to_f64_signed(1, 8, 9), TQ_WRONG_FRAC, 0, 0);
    on_unsigned("more than the format holds", tq_to_f32_signed(1000, 8, 0), 0, 0, 0x447a0000);
}

static void back(void)
{
    for (int64_t raw = -32768; raw <= 32767; raw++) {
        tq_signed wide = tq_convert_signed_to_signed(raw, 16, 15, 64, 40, TQ_STRICT);
        on_signed("wide and back", tq_convert_signed_to_signed(wide.value, 64, 40, 16, 15, TQ_STRICT), 0, 0, raw);
        tq_unsigned f32 = tq_to_f32_signed(raw, 16, 15);
        on_signed("f32 and back", tq_from_f32_signed((uint32_t)f32.value, 16, 15, TQ_STRICT), 0, 0, raw);
        tq_unsigned f64 = tq_to_f64_signed(raw, 16, 15);
        on_signed("f64 and back", tq_from_f64_signed(f64.value, 16, 15, TQ_STRICT), 0, 0, raw);
    }
}

int main(void)
{
    formats();
    patterns();
    back();
    return finish();
}
