/* The high bytes of thirty-two words. Made by examples/make. */
#include <stdint.h>

void high_bytes_line(uint8_t *restrict d, const uint16_t *s)
{
    d[0] = s[0] >> 8;
    d[1] = s[1] >> 8;
    d[2] = s[2] >> 8;
    d[3] = s[3] >> 8;
    d[4] = s[4] >> 8;
    d[5] = s[5] >> 8;
    d[6] = s[6] >> 8;
    d[7] = s[7] >> 8;
    d[8] = s[8] >> 8;
    d[9] = s[9] >> 8;
    d[10] = s[10] >> 8;
    d[11] = s[11] >> 8;
    d[12] = s[12] >> 8;
    d[13] = s[13] >> 8;
    d[14] = s[14] >> 8;
    d[15] = s[15] >> 8;
    d[16] = s[16] >> 8;
    d[17] = s[17] >> 8;
    d[18] = s[18] >> 8;
    d[19] = s[19] >> 8;
    d[20] = s[20] >> 8;
    d[21] = s[21] >> 8;
    d[22] = s[22] >> 8;
    d[23] = s[23] >> 8;
    d[24] = s[24] >> 8;
    d[25] = s[25] >> 8;
    d[26] = s[26] >> 8;
    d[27] = s[27] >> 8;
    d[28] = s[28] >> 8;
    d[29] = s[29] >> 8;
    d[30] = s[30] >> 8;
    d[31] = s[31] >> 8;
}

void high_bytes_loop(uint8_t *restrict d, const uint16_t *s)
{
    for (int i = 0; i < 32; i++)
        d[i] = s[i] >> 8;
}
