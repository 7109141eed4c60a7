/* Fitting files through the C interface: a good one, one with refused lines, the order of refusals, and what each leaves unchanged. */
#include <string.h>
#include "check.h"
#include "tamqoret.h"

enum { PLACES = 66, UNTOUCHED = 0x5a5a };

static uint32_t lines[PLACES], answers[PLACES];
static int16_t raws[PLACES], taps[PLACES];

static void fresh(void)
{
    memset(lines, 0x5a, sizeof lines);
    memset(answers, 0x5a, sizeof answers);
    memset(raws, 0x5a, sizeof raws);
    memset(taps, 0x5a, sizeof taps);
}

/* The answer's four numbers. */
static void answered(const char *what, tq_file a, uint32_t number, uint32_t line, uint32_t inner, uint32_t values)
{
    check(a.number == number, what, a.number, number);
    check(a.line == line, what, a.line, line);
    check(a.inner == inner, what, a.inner, inner);
    check(a.values == values, what, a.values, values);
}

/* From place n on nothing is touched, and no tap from place t on. */
static void kept(const char *what, size_t n, size_t t)
{
    for (size_t i = n; i < PLACES; i++)
        check(lines[i] == 0x5a5a5a5au && answers[i] == 0x5a5a5a5au && raws[i] == UNTOUCHED, what, i, n);
    for (size_t i = t; i < PLACES; i++)
        check(taps[i] == UNTOUCHED, what, i, t);
}

static void entry(size_t i, uint32_t line, int16_t raw, uint32_t answer)
{
    check(lines[i] == line, "line number", lines[i], line);
    check(raws[i] == raw, "raw", (unsigned long long)raws[i], (unsigned long long)raw);
    check(answers[i] == answer, "answer", answers[i], answer);
}

static tq_file read(const char *file, size_t places, size_t tap_places)
{
    fresh();
    return tq_fitting((const uint8_t *)file, strlen(file), lines, places, raws, places, answers, places, taps, tap_places);
}

static void files(void)
{
    answered("good", read("# taps\n0.5\n\n-1", 4, 4), 0, 0, 0, 2);
    entry(0, 2, 16384, 0);
    entry(1, 4, -32768, 0);
    check(taps[0] == 16384 && taps[1] == -32768, "good: taps", 0, 0);
    kept("good", 2, 2);

    answered("refused", read("0.5\n1\n0x0.8\n+0.5\n", 4, 4), TQ_REFUSED_LINE, 2, TQ_OVERFLOW, 0);
    entry(0, 1, 16384, 0);
    entry(1, 2, 0, TQ_OVERFLOW);
    entry(2, 3, 16384, 0);
    entry(3, 4, 0, 12);
    kept("refused", 4, 0);

    answered("empty", read("", 4, 4), 40, 0, 0, 0);
    answered("comments", read("#\n\n# 1\n", 0, 0), 40, 0, 0, 0);
    answered("no place", read("0\n0\n", 1, 2), 5, 0, 0, 0);
    kept("no place", 0, 0);
    answered("no tap", read("0\n1\n", 2, 1), 5, 0, 0, 0);
    kept("no tap", 0, 0);
}

/* 4 goes before 41, 41 before 5, 5 before 40 and 42. */
static void order(void)
{
    static char file[16385 + 1];
    memset(file, '\n', 16385);
    for (size_t i = 0; i < 130; i += 2)
        file[i] = 'x';
    answered("too long", read(file, 0, 0), 4, 0, 0, 0);
    file[16384] = 0;
    answered("65 values", read(file, 0, 0), 41, 0, 0, 0);
    kept("65 values", 0, 0);
    file[0] = '\n';
    answered("64 values, 63 places", read(file, 63, 64), 5, 0, 0, 0);
    answered("64 values", read(file, 64, 64), TQ_REFUSED_LINE, 3, 13, 0);
    kept("64 values", 64, 0);
    fresh();
    tq_file a = tq_fitting((const uint8_t *)"\n", 1, lines, 2, raws, 1, answers, 2, taps, 2);
    answered("unequal lists", a, 5, 0, 0, 0);
    kept("unequal lists", 0, 0);
}

int main(void)
{
    files();
    order();
    return finish();
}
