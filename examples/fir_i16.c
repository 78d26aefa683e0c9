/* Sixteen outputs of a filter of four taps on words, modulo 2^16. Made by examples/make. */
#include <stdint.h>

void fir_i16_line(uint16_t *restrict d, const uint16_t *x)
{
    d[0] = x[0] * 3u + x[1] * 5u + x[2] * 7u + x[3] * 9u;
    d[1] = x[1] * 3u + x[2] * 5u + x[3] * 7u + x[4] * 9u;
    d[2] = x[2] * 3u + x[3] * 5u + x[4] * 7u + x[5] * 9u;
    d[3] = x[3] * 3u + x[4] * 5u + x[5] * 7u + x[6] * 9u;
    d[4] = x[4] * 3u + x[5] * 5u + x[6] * 7u + x[7] * 9u;
    d[5] = x[5] * 3u + x[6] * 5u + x[7] * 7u + x[8] * 9u;
    d[6] = x[6] * 3u + x[7] * 5u + x[8] * 7u + x[9] * 9u;
    d[7] = x[7] * 3u + x[8] * 5u + x[9] * 7u + x[10] * 9u;
    d[8] = x[8] * 3u + x[9] * 5u + x[10] * 7u + x[11] * 9u;
    d[9] = x[9] * 3u + x[10] * 5u + x[11] * 7u + x[12] * 9u;
    d[10] = x[10] * 3u + x[11] * 5u + x[12] * 7u + x[13] * 9u;
    d[11] = x[11] * 3u + x[12] * 5u + x[13] * 7u + x[14] * 9u;
    d[12] = x[12] * 3u + x[13] * 5u + x[14] * 7u + x[15] * 9u;
    d[13] = x[13] * 3u + x[14] * 5u + x[15] * 7u + x[16] * 9u;
    d[14] = x[14] * 3u + x[15] * 5u + x[16] * 7u + x[17] * 9u;
    d[15] = x[15] * 3u + x[16] * 5u + x[17] * 7u + x[18] * 9u;
}

void fir_i16_loop(uint16_t *restrict d, const uint16_t *x)
{
    for (int i = 0; i < 16; i++)
        d[i] = x[i] * 3u + x[i + 1] * 5u + x[i + 2] * 7u + x[i + 3] * 9u;
}
