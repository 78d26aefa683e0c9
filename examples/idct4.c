/* The inverse transform of four columns of four dwords, by 64, 83 and 36, in pictures of 16 dwords a row. Made by examples/make. */
#include <stdint.h>

void idct4_line(int32_t *restrict d, const int32_t *x)
{
    int32_t a0 = x[0];
    int32_t q0 = x[16];
    int32_t b0 = x[32];
    int32_t s0 = x[48];
    int32_t p0 = (a0 + b0) * 64;
    int32_t m0 = (a0 - b0) * 64;
    int32_t a1 = x[1];
    int32_t q1 = x[17];
    int32_t b1 = x[33];
    int32_t s1 = x[49];
    int32_t p1 = (a1 + b1) * 64;
    int32_t m1 = (a1 - b1) * 64;
    int32_t a2 = x[2];
    int32_t q2 = x[18];
    int32_t b2 = x[34];
    int32_t s2 = x[50];
    int32_t p2 = (a2 + b2) * 64;
    int32_t m2 = (a2 - b2) * 64;
    int32_t a3 = x[3];
    int32_t q3 = x[19];
    int32_t b3 = x[35];
    int32_t s3 = x[51];
    int32_t p3 = (a3 + b3) * 64;
    int32_t m3 = (a3 - b3) * 64;
    d[0] = (s0 * 36 + q0 * 83 + p0 + 64) >> 7;
    d[1] = (s1 * 36 + q1 * 83 + p1 + 64) >> 7;
    d[2] = (s2 * 36 + q2 * 83 + p2 + 64) >> 7;
    d[3] = (s3 * 36 + q3 * 83 + p3 + 64) >> 7;
    d[16] = (q0 * 36 + s0 * -83 + m0 + 64) >> 7;
    d[17] = (q1 * 36 + s1 * -83 + m1 + 64) >> 7;
    d[18] = (q2 * 36 + s2 * -83 + m2 + 64) >> 7;
    d[19] = (q3 * 36 + s3 * -83 + m3 + 64) >> 7;
    d[32] = (s0 * 83 + q0 * -36 + m0 + 64) >> 7;
    d[33] = (s1 * 83 + q1 * -36 + m1 + 64) >> 7;
    d[34] = (s2 * 83 + q2 * -36 + m2 + 64) >> 7;
    d[35] = (s3 * 83 + q3 * -36 + m3 + 64) >> 7;
    d[48] = (q0 * -83 + s0 * -36 + p0 + 64) >> 7;
    d[49] = (q1 * -83 + s1 * -36 + p1 + 64) >> 7;
    d[50] = (q2 * -83 + s2 * -36 + p2 + 64) >> 7;
    d[51] = (q3 * -83 + s3 * -36 + p3 + 64) >> 7;
}

void idct4_loop(int32_t *restrict d, const int32_t *x)
{
    for (int i = 0; i < 4; i++) {
        int32_t p = (x[i] + x[32 + i]) * 64, m = (x[i] - x[32 + i]) * 64;
        int32_t o = x[16 + i] * 83 + x[48 + i] * 36, u = x[16 + i] * 36 - x[48 + i] * 83;
        d[i] = (p + o + 64) >> 7;
        d[16 + i] = (m + u + 64) >> 7;
        d[32 + i] = (m - u + 64) >> 7;
        d[48 + i] = (p - o + 64) >> 7;
    }
}
