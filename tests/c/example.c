/* The README's program. Compared with what the README says it prints. */
#include <string.h>
#include "check.h"

int main(void)
{
    int16_t taps[2] = {32767, 2}, witness[2];
    tq_unsigned verdict = tq_headroom(taps, 2, witness, 2);
    char line[64];
    snprintf(line, sizeof line, "verdict %llu: samples %d, %d clip", (unsigned long long)verdict.value, witness[0], witness[1]);
    puts(line);
    check(strcmp(line, "verdict 1: samples 32767, 32767 clip") == 0, "verdict", verdict.value, 1);
    return finish();
}
