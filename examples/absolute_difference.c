/* The differences of sixteen pairs of bytes, without sign. Made by examples/make. */
#include <stdint.h>

void absolute_difference_line(uint8_t *restrict d, const uint8_t *a, const uint8_t *b)
{
    uint8_t a0 = a[0];
    uint8_t b0 = b[0];
    d[0] = a0 > b0 ? a0 - b0 : b0 - a0;
    uint8_t a1 = a[1];
    uint8_t b1 = b[1];
    d[1] = a1 > b1 ? a1 - b1 : b1 - a1;
    uint8_t a2 = a[2];
    uint8_t b2 = b[2];
    d[2] = a2 > b2 ? a2 - b2 : b2 - a2;
    uint8_t a3 = a[3];
    uint8_t b3 = b[3];
    d[3] = a3 > b3 ? a3 - b3 : b3 - a3;
    uint8_t a4 = a[4];
    uint8_t b4 = b[4];
    d[4] = a4 > b4 ? a4 - b4 : b4 - a4;
    uint8_t a5 = a[5];
    uint8_t b5 = b[5];
    d[5] = a5 > b5 ? a5 - b5 : b5 - a5;
    uint8_t a6 = a[6];
    uint8_t b6 = b[6];
    d[6] = a6 > b6 ? a6 - b6 : b6 - a6;
    uint8_t a7 = a[7];
    uint8_t b7 = b[7];
    d[7] = a7 > b7 ? a7 - b7 : b7 - a7;
    uint8_t a8 = a[8];
    uint8_t b8 = b[8];
    d[8] = a8 > b8 ? a8 - b8 : b8 - a8;
    uint8_t a9 = a[9];
    uint8_t b9 = b[9];
    d[9] = a9 > b9 ? a9 - b9 : b9 - a9;
    uint8_t a10 = a[10];
    uint8_t b10 = b[10];
    d[10] = a10 > b10 ? a10 - b10 : b10 - a10;
    uint8_t a11 = a[11];
    uint8_t b11 = b[11];
    d[11] = a11 > b11 ? a11 - b11 : b11 - a11;
    uint8_t a12 = a[12];
    uint8_t b12 = b[12];
    d[12] = a12 > b12 ? a12 - b12 : b12 - a12;
    uint8_t a13 = a[13];
    uint8_t b13 = b[13];
    d[13] = a13 > b13 ? a13 - b13 : b13 - a13;
    uint8_t a14 = a[14];
    uint8_t b14 = b[14];
    d[14] = a14 > b14 ? a14 - b14 : b14 - a14;
    uint8_t a15 = a[15];
    uint8_t b15 = b[15];
    d[15] = a15 > b15 ? a15 - b15 : b15 - a15;
}

void absolute_difference_loop(uint8_t *restrict d, const uint8_t *a, const uint8_t *b)
{
    for (int i = 0; i < 16; i++)
        d[i] = a[i] > b[i] ? a[i] - b[i] : b[i] - a[i];
}
