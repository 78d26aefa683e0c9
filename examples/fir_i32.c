/* Eight outputs of a filter of eight taps on dwords. Made by examples/make. */
#include <stdint.h>

void fir_i32_line(int32_t *restrict d, const int32_t *x)
{
    d[0] = (uint32_t)x[0] * 3 + (uint32_t)x[1] * 5 + (uint32_t)x[2] * 7 + (uint32_t)x[3] * 9 + (uint32_t)x[4] * 11 + (uint32_t)x[5] * 13 + (uint32_t)x[6] * 15 + (uint32_t)x[7] * 17;
    d[1] = (uint32_t)x[1] * 3 + (uint32_t)x[2] * 5 + (uint32_t)x[3] * 7 + (uint32_t)x[4] * 9 + (uint32_t)x[5] * 11 + (uint32_t)x[6] * 13 + (uint32_t)x[7] * 15 + (uint32_t)x[8] * 17;
    d[2] = (uint32_t)x[2] * 3 + (uint32_t)x[3] * 5 + (uint32_t)x[4] * 7 + (uint32_t)x[5] * 9 + (uint32_t)x[6] * 11 + (uint32_t)x[7] * 13 + (uint32_t)x[8] * 15 + (uint32_t)x[9] * 17;
    d[3] = (uint32_t)x[3] * 3 + (uint32_t)x[4] * 5 + (uint32_t)x[5] * 7 + (uint32_t)x[6] * 9 + (uint32_t)x[7] * 11 + (uint32_t)x[8] * 13 + (uint32_t)x[9] * 15 + (uint32_t)x[10] * 17;
    d[4] = (uint32_t)x[4] * 3 + (uint32_t)x[5] * 5 + (uint32_t)x[6] * 7 + (uint32_t)x[7] * 9 + (uint32_t)x[8] * 11 + (uint32_t)x[9] * 13 + (uint32_t)x[10] * 15 + (uint32_t)x[11] * 17;
    d[5] = (uint32_t)x[5] * 3 + (uint32_t)x[6] * 5 + (uint32_t)x[7] * 7 + (uint32_t)x[8] * 9 + (uint32_t)x[9] * 11 + (uint32_t)x[10] * 13 + (uint32_t)x[11] * 15 + (uint32_t)x[12] * 17;
    d[6] = (uint32_t)x[6] * 3 + (uint32_t)x[7] * 5 + (uint32_t)x[8] * 7 + (uint32_t)x[9] * 9 + (uint32_t)x[10] * 11 + (uint32_t)x[11] * 13 + (uint32_t)x[12] * 15 + (uint32_t)x[13] * 17;
    d[7] = (uint32_t)x[7] * 3 + (uint32_t)x[8] * 5 + (uint32_t)x[9] * 7 + (uint32_t)x[10] * 9 + (uint32_t)x[11] * 11 + (uint32_t)x[12] * 13 + (uint32_t)x[13] * 15 + (uint32_t)x[14] * 17;
}

void fir_i32_loop(int32_t *restrict d, const int32_t *x)
{
    static const int32_t taps[8] = {3, 5, 7, 9, 11, 13, 15, 17};
    for (int i = 0; i < 8; i++) {
        uint32_t s = 0;
        for (int k = 0; k < 8; k++)
            s += (uint32_t)x[i + k] * taps[k];
        d[i] = s;
    }
}
