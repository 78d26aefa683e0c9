/* Eight products of complex numbers of words, real and imaginary parts apart. Made by examples/make. */
#include <stdint.h>

void complex_multiply_line(int32_t *restrict d, int32_t *restrict e, const int16_t *a, const int16_t *b)
{
    int r0 = a[0];
    int t0 = a[1];
    int u0 = b[0];
    int v0 = b[1];
    int r1 = a[2];
    int t1 = a[3];
    int u1 = b[2];
    int v1 = b[3];
    int r2 = a[4];
    int t2 = a[5];
    int u2 = b[4];
    int v2 = b[5];
    int r3 = a[6];
    int t3 = a[7];
    int u3 = b[6];
    int v3 = b[7];
    int r4 = a[8];
    int t4 = a[9];
    int u4 = b[8];
    int v4 = b[9];
    int r5 = a[10];
    int t5 = a[11];
    int u5 = b[10];
    int v5 = b[11];
    int r6 = a[12];
    int t6 = a[13];
    int u6 = b[12];
    int v6 = b[13];
    int r7 = a[14];
    int t7 = a[15];
    int u7 = b[14];
    int v7 = b[15];
    d[0] = (uint32_t)(r0 * u0) - t0 * v0;
    d[1] = (uint32_t)(r1 * u1) - t1 * v1;
    d[2] = (uint32_t)(r2 * u2) - t2 * v2;
    d[3] = (uint32_t)(r3 * u3) - t3 * v3;
    d[4] = (uint32_t)(r4 * u4) - t4 * v4;
    d[5] = (uint32_t)(r5 * u5) - t5 * v5;
    d[6] = (uint32_t)(r6 * u6) - t6 * v6;
    d[7] = (uint32_t)(r7 * u7) - t7 * v7;
    e[0] = (uint32_t)(r0 * v0) + t0 * u0;
    e[1] = (uint32_t)(r1 * v1) + t1 * u1;
    e[2] = (uint32_t)(r2 * v2) + t2 * u2;
    e[3] = (uint32_t)(r3 * v3) + t3 * u3;
    e[4] = (uint32_t)(r4 * v4) + t4 * u4;
    e[5] = (uint32_t)(r5 * v5) + t5 * u5;
    e[6] = (uint32_t)(r6 * v6) + t6 * u6;
    e[7] = (uint32_t)(r7 * v7) + t7 * u7;
}

void complex_multiply_loop(int32_t *restrict d, int32_t *restrict e, const int16_t *a, const int16_t *b)
{
    for (int i = 0; i < 8; i++) {
        d[i] = (uint32_t)(a[2 * i] * b[2 * i]) - a[2 * i + 1] * b[2 * i + 1];
        e[i] = (uint32_t)(a[2 * i] * b[2 * i + 1]) + a[2 * i + 1] * b[2 * i];
    }
}
