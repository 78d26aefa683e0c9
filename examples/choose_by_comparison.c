/* Sixteen words of one of two pictures, as two others compare. Made by examples/make. */
#include <stdint.h>

void choose_by_comparison_line(int16_t *restrict d, const int16_t *a, const int16_t *b, const int16_t *c, const int16_t *e)
{
    d[0] = a[0] > b[0] ? c[0] : e[0];
    d[1] = a[1] > b[1] ? c[1] : e[1];
    d[2] = a[2] > b[2] ? c[2] : e[2];
    d[3] = a[3] > b[3] ? c[3] : e[3];
    d[4] = a[4] > b[4] ? c[4] : e[4];
    d[5] = a[5] > b[5] ? c[5] : e[5];
    d[6] = a[6] > b[6] ? c[6] : e[6];
    d[7] = a[7] > b[7] ? c[7] : e[7];
    d[8] = a[8] > b[8] ? c[8] : e[8];
    d[9] = a[9] > b[9] ? c[9] : e[9];
    d[10] = a[10] > b[10] ? c[10] : e[10];
    d[11] = a[11] > b[11] ? c[11] : e[11];
    d[12] = a[12] > b[12] ? c[12] : e[12];
    d[13] = a[13] > b[13] ? c[13] : e[13];
    d[14] = a[14] > b[14] ? c[14] : e[14];
    d[15] = a[15] > b[15] ? c[15] : e[15];
}

void choose_by_comparison_loop(int16_t *restrict d, const int16_t *a, const int16_t *b, const int16_t *c, const int16_t *e)
{
    for (int i = 0; i < 16; i++)
        d[i] = a[i] > b[i] ? c[i] : e[i];
}
