/* `settle` through the archive, against a model in 128-bit integers, on every limit of width, frac, manner, sign and words. */
#include "model.h"

static const uint32_t widths[] = {0, 7, 8, 9, 16, 31, 32, 63, 64, 65, 4294967295u};
static const uint64_t words[] = {
    0, 1, 2, 126, 127, 128, 129, 254, 255, 256, 257, 384, 32767, 32768, 32769, 65535, 65536, 0x7fffffff, 0x80000000, 0x80000001,
    0xffffffff, 0x100000000, 0x7fffffffffffffff, 0x8000000000000000, 0x8000000000000001, 0xfffffffffffffffe, 0xffffffffffffffff};

static void one(format to, uint32_t neg, uint64_t high, uint64_t low)
{
    tq_unsigned got = to.is_signed ? bits_of(tq_settle_signed(neg, high, low, to.width, to.frac, to.manner))
                                   : tq_settle_unsigned(neg, high, low, to.width, to.frac, to.manner);
    uint32_t fault = fault_of(to);
    exact x = {neg != 0, (natural)high << 64 | low};
    same("settle", got, fault == TQ_DONE ? settled(to, x) : refused(fault));
}

int main(void)
{
    for (size_t i = 0; i < COUNT(widths); i++) {
        uint32_t w = widths[i];
        const uint32_t fracs[] = {0, 1, w - 1, w, w + 1, 4294967295u};
        const uint32_t manners[] = {0, 1, 2, 3, 4, 4294967295u};
        const uint32_t negs[] = {0, 1, 2, 256, 2147483648u, 4294967295u};
        for (size_t h = 0; h < COUNT(words); h++)
            for (size_t l = 0; l < COUNT(words); l++)
                for (size_t f = 0; f < COUNT(fracs); f++)
                    for (size_t k = 0; k < COUNT(manners); k++)
                        for (size_t n = 0; n < COUNT(negs); n++)
                            for (int s = 0; s < 2; s++)
                                one((format){s, w, fracs[f], manners[k]}, negs[n], words[h], words[l]);
    }
    return finish();
}
