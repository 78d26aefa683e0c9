/* Eight sums of four products of unsigned by signed bytes. Made by examples/make. */
#include <stdint.h>

void dot_u8_s8_line(int32_t *restrict d, const int32_t *c, const uint8_t *a, const int8_t *b)
{
    d[0] = c[0] + a[0] * b[0] + a[1] * b[1] + a[2] * b[2] + a[3] * b[3];
    d[1] = c[1] + a[4] * b[4] + a[5] * b[5] + a[6] * b[6] + a[7] * b[7];
    d[2] = c[2] + a[8] * b[8] + a[9] * b[9] + a[10] * b[10] + a[11] * b[11];
    d[3] = c[3] + a[12] * b[12] + a[13] * b[13] + a[14] * b[14] + a[15] * b[15];
    d[4] = c[4] + a[16] * b[16] + a[17] * b[17] + a[18] * b[18] + a[19] * b[19];
    d[5] = c[5] + a[20] * b[20] + a[21] * b[21] + a[22] * b[22] + a[23] * b[23];
    d[6] = c[6] + a[24] * b[24] + a[25] * b[25] + a[26] * b[26] + a[27] * b[27];
    d[7] = c[7] + a[28] * b[28] + a[29] * b[29] + a[30] * b[30] + a[31] * b[31];
}

void dot_u8_s8_loop(int32_t *restrict d, const int32_t *c, const uint8_t *a, const int8_t *b)
{
    for (int i = 0; i < 8; i++) {
        int32_t s = c[i];
        for (int k = 0; k < 4; k++)
            s += a[4 * i + k] * b[4 * i + k];
        d[i] = s;
    }
}
