/* The averages of sixteen pairs of bytes, rounded up. Made by examples/make. */
#include <stdint.h>

void average_line(uint8_t *restrict d, const uint8_t *a, const uint8_t *b)
{
    d[0] = (a[0] + b[0] + 1) >> 1;
    d[1] = (a[1] + b[1] + 1) >> 1;
    d[2] = (a[2] + b[2] + 1) >> 1;
    d[3] = (a[3] + b[3] + 1) >> 1;
    d[4] = (a[4] + b[4] + 1) >> 1;
    d[5] = (a[5] + b[5] + 1) >> 1;
    d[6] = (a[6] + b[6] + 1) >> 1;
    d[7] = (a[7] + b[7] + 1) >> 1;
    d[8] = (a[8] + b[8] + 1) >> 1;
    d[9] = (a[9] + b[9] + 1) >> 1;
    d[10] = (a[10] + b[10] + 1) >> 1;
    d[11] = (a[11] + b[11] + 1) >> 1;
    d[12] = (a[12] + b[12] + 1) >> 1;
    d[13] = (a[13] + b[13] + 1) >> 1;
    d[14] = (a[14] + b[14] + 1) >> 1;
    d[15] = (a[15] + b[15] + 1) >> 1;
}

void average_loop(uint8_t *restrict d, const uint8_t *a, const uint8_t *b)
{
    for (int i = 0; i < 16; i++)
        d[i] = (a[i] + b[i] + 1) >> 1;
}
