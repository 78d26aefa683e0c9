/* Sixteen products of fractions of 15 bits, rounded. Made by examples/make. */
#include <stdint.h>

void fraction_product_line(int16_t *restrict d, const int16_t *a, const int16_t *b)
{
    d[0] = (a[0] * b[0] + 16384) >> 15;
    d[1] = (a[1] * b[1] + 16384) >> 15;
    d[2] = (a[2] * b[2] + 16384) >> 15;
    d[3] = (a[3] * b[3] + 16384) >> 15;
    d[4] = (a[4] * b[4] + 16384) >> 15;
    d[5] = (a[5] * b[5] + 16384) >> 15;
    d[6] = (a[6] * b[6] + 16384) >> 15;
    d[7] = (a[7] * b[7] + 16384) >> 15;
    d[8] = (a[8] * b[8] + 16384) >> 15;
    d[9] = (a[9] * b[9] + 16384) >> 15;
    d[10] = (a[10] * b[10] + 16384) >> 15;
    d[11] = (a[11] * b[11] + 16384) >> 15;
    d[12] = (a[12] * b[12] + 16384) >> 15;
    d[13] = (a[13] * b[13] + 16384) >> 15;
    d[14] = (a[14] * b[14] + 16384) >> 15;
    d[15] = (a[15] * b[15] + 16384) >> 15;
}

void fraction_product_loop(int16_t *restrict d, const int16_t *a, const int16_t *b)
{
    for (int i = 0; i < 16; i++)
        d[i] = (a[i] * b[i] + 16384) >> 15;
}
