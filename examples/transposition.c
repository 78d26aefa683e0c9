/* Four rows of four dwords, as columns, in pictures of 16 dwords a row. Made by examples/make. */
#include <stdint.h>

void transposition_line(uint32_t *restrict d, const uint32_t *s)
{
    d[0] = s[0];
    d[1] = s[16];
    d[2] = s[32];
    d[3] = s[48];
    d[16] = s[1];
    d[17] = s[17];
    d[18] = s[33];
    d[19] = s[49];
    d[32] = s[2];
    d[33] = s[18];
    d[34] = s[34];
    d[35] = s[50];
    d[48] = s[3];
    d[49] = s[19];
    d[50] = s[35];
    d[51] = s[51];
}

void transposition_loop(uint32_t *restrict d, const uint32_t *s)
{
    for (int i = 0; i < 4; i++)
        for (int k = 0; k < 4; k++)
            d[16 * i + k] = s[16 * k + i];
}
