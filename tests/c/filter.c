/* The filter's rounding and the verdicts that stand on it, with the numbers of documents 01 and 02: P / 2^15 to the nearest, ties to even, before it
 * is held to the range. The same from the other side of 0: no offset. */
#include "check.h"

enum { MOST = 3 };

/* Two taps and the last two samples, newest first; the output, and whether it is held. */
static void output(const int16_t taps[2], const int16_t newest_first[2], int16_t want, uint8_t held)
{
    tq_state state = {{0}};
    const int16_t samples[2] = {newest_first[1], newest_first[0]};
    int16_t outputs[2];
    uint8_t clips[2];
    tq_unsigned a = tq_filter(taps, 2, &state, samples, 2, outputs, 2, clips, 2);
    long long sum = (long long)taps[0] * newest_first[0] + (long long)taps[1] * newest_first[1];
    char what[64];
    snprintf(what, sizeof what, "P = %lld", sum);
    check(a.number == 0, what, a.number, 0);
    check(outputs[1] == want, what, (unsigned long long)(long long)outputs[1], (unsigned long long)(long long)want);
    check(clips[1] == held, what, clips[1], held);
}

/* P = tap x sample + rest, both ways up where the range has both. */
static void rounded(int16_t tap, int16_t sample, int16_t rest, int16_t want)
{
    output((int16_t[]){tap, 1}, (int16_t[]){sample, rest}, want, 0);
    output((int16_t[]){tap, 1}, (int16_t[]){(int16_t)-sample, (int16_t)-rest}, (int16_t)-want, 0);
}

static void verdict(const int16_t *taps, size_t n, uint64_t want, const int16_t *samples)
{
    int16_t witness[MOST] = {7, 7, 7};
    tq_unsigned a = tq_headroom(taps, n, witness, n);
    on_unsigned("verdict", a, 0, 0, want);
    for (size_t i = 0; i < n; i++)
        check(witness[i] == samples[i], "witness", (unsigned long long)(long long)witness[i], (unsigned long long)(long long)samples[i]);
}

int main(void)
{
    /* less than half a step, half a step to an even one, more than half */
    rounded(16384, 0, 1, 0);
    rounded(16384, 1, -1, 0);
    rounded(16384, 1, 0, 0);
    rounded(16384, 1, 1, 1);
    rounded(16384, 3, -1, 1);
    rounded(16384, 3, 0, 2);
    rounded(16384, 5, 0, 2);
    rounded(16384, 32767, 0, 16384);
    rounded(-32768, -32767, 16383, 32767);
    /* the ends: 32767.5 steps are 32768 and held, -32768.5 are -32768 and are not */
    output((int16_t[]){-32768, 1}, (int16_t[]){-32767, 16384}, 32767, 1);
    output((int16_t[]){-32768, 1}, (int16_t[]){-32768, -16384}, 32767, 1);
    output((int16_t[]){-32768, 1}, (int16_t[]){-32768, -16385}, 32767, 0);
    output((int16_t[]){16384, 16384}, (int16_t[]){-32768, -32768}, -32768, 0);
    output((int16_t[]){32767, 32767}, (int16_t[]){-32768, -2}, -32768, 1);
    output((int16_t[]){-32768, 16384}, (int16_t[]){32767, -3}, -32768, 0);
    output((int16_t[]){-32768, 16385}, (int16_t[]){32767, -3}, -32768, 1);

    /* headroom */
    verdict((int16_t[]){32767}, 1, 0, (int16_t[]){7});
    verdict((int16_t[]){-32768}, 1, 1, (int16_t[]){-32768});
    verdict((int16_t[]){32767, 1}, 2, 0, (int16_t[]){7, 7});
    verdict((int16_t[]){32767, 2}, 2, 1, (int16_t[]){32767, 32767});
    verdict((int16_t[]){16384, -16384}, 2, 1, (int16_t[]){32767, -32768});
    verdict((int16_t[]){16385, -16383}, 2, 0, (int16_t[]){7, 7});
    verdict((int16_t[]){-16384, 0, 16384}, 3, 1, (int16_t[]){-32768, 0, 32767});
    return finish();
}
