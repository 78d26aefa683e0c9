/* Eight dwords with the bits of a mask from one, the others from another. Made by examples/make. */
#include <stdint.h>

void merge_bits_line(uint32_t *restrict d, const uint32_t *a, const uint32_t *b, const uint32_t *m)
{
    uint32_t m0 = m[0];
    d[0] = (a[0] & m0) | (b[0] & ~m0);
    uint32_t m1 = m[1];
    d[1] = (a[1] & m1) | (b[1] & ~m1);
    uint32_t m2 = m[2];
    d[2] = (a[2] & m2) | (b[2] & ~m2);
    uint32_t m3 = m[3];
    d[3] = (a[3] & m3) | (b[3] & ~m3);
    uint32_t m4 = m[4];
    d[4] = (a[4] & m4) | (b[4] & ~m4);
    uint32_t m5 = m[5];
    d[5] = (a[5] & m5) | (b[5] & ~m5);
    uint32_t m6 = m[6];
    d[6] = (a[6] & m6) | (b[6] & ~m6);
    uint32_t m7 = m[7];
    d[7] = (a[7] & m7) | (b[7] & ~m7);
}

void merge_bits_loop(uint32_t *restrict d, const uint32_t *a, const uint32_t *b, const uint32_t *m)
{
    for (int i = 0; i < 8; i++)
        d[i] = (a[i] & m[i]) | (b[i] & ~m[i]);
}
