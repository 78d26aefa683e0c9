/* The luma of sixteen pixels from three planes of words. Made by examples/make. */
#include <stdint.h>

void luma_planes_line(uint16_t *restrict d, const uint16_t *b, const uint16_t *r, const uint16_t *g)
{
    d[0] = (uint16_t)(b[0] * 25u + r[0] * 66u + g[0] * 129u + 128) >> 8;
    d[1] = (uint16_t)(b[1] * 25u + r[1] * 66u + g[1] * 129u + 128) >> 8;
    d[2] = (uint16_t)(b[2] * 25u + r[2] * 66u + g[2] * 129u + 128) >> 8;
    d[3] = (uint16_t)(b[3] * 25u + r[3] * 66u + g[3] * 129u + 128) >> 8;
    d[4] = (uint16_t)(b[4] * 25u + r[4] * 66u + g[4] * 129u + 128) >> 8;
    d[5] = (uint16_t)(b[5] * 25u + r[5] * 66u + g[5] * 129u + 128) >> 8;
    d[6] = (uint16_t)(b[6] * 25u + r[6] * 66u + g[6] * 129u + 128) >> 8;
    d[7] = (uint16_t)(b[7] * 25u + r[7] * 66u + g[7] * 129u + 128) >> 8;
    d[8] = (uint16_t)(b[8] * 25u + r[8] * 66u + g[8] * 129u + 128) >> 8;
    d[9] = (uint16_t)(b[9] * 25u + r[9] * 66u + g[9] * 129u + 128) >> 8;
    d[10] = (uint16_t)(b[10] * 25u + r[10] * 66u + g[10] * 129u + 128) >> 8;
    d[11] = (uint16_t)(b[11] * 25u + r[11] * 66u + g[11] * 129u + 128) >> 8;
    d[12] = (uint16_t)(b[12] * 25u + r[12] * 66u + g[12] * 129u + 128) >> 8;
    d[13] = (uint16_t)(b[13] * 25u + r[13] * 66u + g[13] * 129u + 128) >> 8;
    d[14] = (uint16_t)(b[14] * 25u + r[14] * 66u + g[14] * 129u + 128) >> 8;
    d[15] = (uint16_t)(b[15] * 25u + r[15] * 66u + g[15] * 129u + 128) >> 8;
}

void luma_planes_loop(uint16_t *restrict d, const uint16_t *b, const uint16_t *r, const uint16_t *g)
{
    for (int i = 0; i < 16; i++)
        d[i] = (uint16_t)(b[i] * 25u + r[i] * 66u + g[i] * 129u + 128) >> 8;
}
