/* Six rows of bytes, each the row two above it moved on by one byte; the first byte of a row stays. gcc 12.2 compiles it to wrong code
   with -O3 -mavx2: tools/check-compiler finds the byte. */
#include <stdint.h>

void diagonal(uint8_t *p)
{
    for (int row = 0; row < 6; row++)
        for (int column = 1; column < 8; column++)
            p[32 * row + column] = p[32 * (row - 2) + column - 1];
}
