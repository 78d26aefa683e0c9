/* Eight sums of two products of words. Made by examples/make. */
#include <stdint.h>

void dot_i16_line(int32_t *restrict d, const int16_t *p, const int16_t *q)
{
    d[0] = p[0] * q[0] + p[1] * q[1];
    d[1] = p[2] * q[2] + p[3] * q[3];
    d[2] = p[4] * q[4] + p[5] * q[5];
    d[3] = p[6] * q[6] + p[7] * q[7];
    d[4] = p[8] * q[8] + p[9] * q[9];
    d[5] = p[10] * q[10] + p[11] * q[11];
    d[6] = p[12] * q[12] + p[13] * q[13];
    d[7] = p[14] * q[14] + p[15] * q[15];
}

void dot_i16_loop(int32_t *restrict d, const int16_t *p, const int16_t *q)
{
    for (int i = 0; i < 8; i++)
        d[i] = p[2 * i] * q[2 * i] + p[2 * i + 1] * q[2 * i + 1];
}
