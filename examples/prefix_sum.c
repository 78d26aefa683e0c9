/* The sums of the first dwords, with what came before. Made by examples/make. */
#include <stdint.h>

void prefix_sum_line(uint32_t *restrict d, const uint32_t *c, const uint32_t *x)
{
    uint32_t s0 = c[0] + x[0];
    uint32_t s1 = s0 + x[1];
    uint32_t s2 = s1 + x[2];
    uint32_t s3 = s2 + x[3];
    uint32_t s4 = s3 + x[4];
    uint32_t s5 = s4 + x[5];
    uint32_t s6 = s5 + x[6];
    uint32_t s7 = s6 + x[7];
    d[0] = s0;
    d[1] = s1;
    d[2] = s2;
    d[3] = s3;
    d[4] = s4;
    d[5] = s5;
    d[6] = s6;
    d[7] = s7;
}

void prefix_sum_loop(uint32_t *restrict d, const uint32_t *c, const uint32_t *x)
{
    uint32_t s = c[0];
    for (int i = 0; i < 8; i++)
        d[i] = s += x[i];
}
