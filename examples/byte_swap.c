/* Eight dwords with their bytes in the other order. Made by examples/make. */
#include <stdint.h>

void byte_swap_line(uint32_t *restrict d, const uint32_t *s)
{
    uint32_t x0 = s[0];
    d[0] = x0 << 24 | (x0 << 8 & 0xff0000) | (x0 >> 8 & 0xff00) | x0 >> 24;
    uint32_t x1 = s[1];
    d[1] = x1 << 24 | (x1 << 8 & 0xff0000) | (x1 >> 8 & 0xff00) | x1 >> 24;
    uint32_t x2 = s[2];
    d[2] = x2 << 24 | (x2 << 8 & 0xff0000) | (x2 >> 8 & 0xff00) | x2 >> 24;
    uint32_t x3 = s[3];
    d[3] = x3 << 24 | (x3 << 8 & 0xff0000) | (x3 >> 8 & 0xff00) | x3 >> 24;
    uint32_t x4 = s[4];
    d[4] = x4 << 24 | (x4 << 8 & 0xff0000) | (x4 >> 8 & 0xff00) | x4 >> 24;
    uint32_t x5 = s[5];
    d[5] = x5 << 24 | (x5 << 8 & 0xff0000) | (x5 >> 8 & 0xff00) | x5 >> 24;
    uint32_t x6 = s[6];
    d[6] = x6 << 24 | (x6 << 8 & 0xff0000) | (x6 >> 8 & 0xff00) | x6 >> 24;
    uint32_t x7 = s[7];
    d[7] = x7 << 24 | (x7 << 8 & 0xff0000) | (x7 >> 8 & 0xff00) | x7 >> 24;
}

void byte_swap_loop(uint32_t *restrict d, const uint32_t *s)
{
    for (int i = 0; i < 8; i++) {
        uint32_t x = s[i];
        d[i] = x << 24 | (x << 8 & 0xff0000) | (x >> 8 & 0xff00) | x >> 24;
    }
}
