/* Four sums of eight differences of bytes, without sign. Made by examples/make. */
#include <stdint.h>

void sad_line(uint64_t *restrict d, const uint8_t *a, const uint8_t *b)
{
    uint8_t a0 = a[0];
    uint8_t b0 = b[0];
    uint16_t x0 = (a0 > b0 ? a0 : b0) - (a0 < b0 ? a0 : b0);
    uint8_t a1 = a[1];
    uint8_t b1 = b[1];
    uint16_t x1 = (a1 > b1 ? a1 : b1) - (a1 < b1 ? a1 : b1);
    uint8_t a2 = a[2];
    uint8_t b2 = b[2];
    uint16_t x2 = (a2 > b2 ? a2 : b2) - (a2 < b2 ? a2 : b2);
    uint8_t a3 = a[3];
    uint8_t b3 = b[3];
    uint16_t x3 = (a3 > b3 ? a3 : b3) - (a3 < b3 ? a3 : b3);
    uint8_t a4 = a[4];
    uint8_t b4 = b[4];
    uint16_t x4 = (a4 > b4 ? a4 : b4) - (a4 < b4 ? a4 : b4);
    uint8_t a5 = a[5];
    uint8_t b5 = b[5];
    uint16_t x5 = (a5 > b5 ? a5 : b5) - (a5 < b5 ? a5 : b5);
    uint8_t a6 = a[6];
    uint8_t b6 = b[6];
    uint16_t x6 = (a6 > b6 ? a6 : b6) - (a6 < b6 ? a6 : b6);
    uint8_t a7 = a[7];
    uint8_t b7 = b[7];
    uint16_t x7 = (a7 > b7 ? a7 : b7) - (a7 < b7 ? a7 : b7);
    d[0] = x0 + x1 + x2 + x3 + x4 + x5 + x6 + x7;
    uint8_t a8 = a[8];
    uint8_t b8 = b[8];
    uint16_t x8 = (a8 > b8 ? a8 : b8) - (a8 < b8 ? a8 : b8);
    uint8_t a9 = a[9];
    uint8_t b9 = b[9];
    uint16_t x9 = (a9 > b9 ? a9 : b9) - (a9 < b9 ? a9 : b9);
    uint8_t a10 = a[10];
    uint8_t b10 = b[10];
    uint16_t x10 = (a10 > b10 ? a10 : b10) - (a10 < b10 ? a10 : b10);
    uint8_t a11 = a[11];
    uint8_t b11 = b[11];
    uint16_t x11 = (a11 > b11 ? a11 : b11) - (a11 < b11 ? a11 : b11);
    uint8_t a12 = a[12];
    uint8_t b12 = b[12];
    uint16_t x12 = (a12 > b12 ? a12 : b12) - (a12 < b12 ? a12 : b12);
    uint8_t a13 = a[13];
    uint8_t b13 = b[13];
    uint16_t x13 = (a13 > b13 ? a13 : b13) - (a13 < b13 ? a13 : b13);
    uint8_t a14 = a[14];
    uint8_t b14 = b[14];
    uint16_t x14 = (a14 > b14 ? a14 : b14) - (a14 < b14 ? a14 : b14);
    uint8_t a15 = a[15];
    uint8_t b15 = b[15];
    uint16_t x15 = (a15 > b15 ? a15 : b15) - (a15 < b15 ? a15 : b15);
    d[1] = x8 + x9 + x10 + x11 + x12 + x13 + x14 + x15;
    uint8_t a16 = a[16];
    uint8_t b16 = b[16];
    uint16_t x16 = (a16 > b16 ? a16 : b16) - (a16 < b16 ? a16 : b16);
    uint8_t a17 = a[17];
    uint8_t b17 = b[17];
    uint16_t x17 = (a17 > b17 ? a17 : b17) - (a17 < b17 ? a17 : b17);
    uint8_t a18 = a[18];
    uint8_t b18 = b[18];
    uint16_t x18 = (a18 > b18 ? a18 : b18) - (a18 < b18 ? a18 : b18);
    uint8_t a19 = a[19];
    uint8_t b19 = b[19];
    uint16_t x19 = (a19 > b19 ? a19 : b19) - (a19 < b19 ? a19 : b19);
    uint8_t a20 = a[20];
    uint8_t b20 = b[20];
    uint16_t x20 = (a20 > b20 ? a20 : b20) - (a20 < b20 ? a20 : b20);
    uint8_t a21 = a[21];
    uint8_t b21 = b[21];
    uint16_t x21 = (a21 > b21 ? a21 : b21) - (a21 < b21 ? a21 : b21);
    uint8_t a22 = a[22];
    uint8_t b22 = b[22];
    uint16_t x22 = (a22 > b22 ? a22 : b22) - (a22 < b22 ? a22 : b22);
    uint8_t a23 = a[23];
    uint8_t b23 = b[23];
    uint16_t x23 = (a23 > b23 ? a23 : b23) - (a23 < b23 ? a23 : b23);
    d[2] = x16 + x17 + x18 + x19 + x20 + x21 + x22 + x23;
    uint8_t a24 = a[24];
    uint8_t b24 = b[24];
    uint16_t x24 = (a24 > b24 ? a24 : b24) - (a24 < b24 ? a24 : b24);
    uint8_t a25 = a[25];
    uint8_t b25 = b[25];
    uint16_t x25 = (a25 > b25 ? a25 : b25) - (a25 < b25 ? a25 : b25);
    uint8_t a26 = a[26];
    uint8_t b26 = b[26];
    uint16_t x26 = (a26 > b26 ? a26 : b26) - (a26 < b26 ? a26 : b26);
    uint8_t a27 = a[27];
    uint8_t b27 = b[27];
    uint16_t x27 = (a27 > b27 ? a27 : b27) - (a27 < b27 ? a27 : b27);
    uint8_t a28 = a[28];
    uint8_t b28 = b[28];
    uint16_t x28 = (a28 > b28 ? a28 : b28) - (a28 < b28 ? a28 : b28);
    uint8_t a29 = a[29];
    uint8_t b29 = b[29];
    uint16_t x29 = (a29 > b29 ? a29 : b29) - (a29 < b29 ? a29 : b29);
    uint8_t a30 = a[30];
    uint8_t b30 = b[30];
    uint16_t x30 = (a30 > b30 ? a30 : b30) - (a30 < b30 ? a30 : b30);
    uint8_t a31 = a[31];
    uint8_t b31 = b[31];
    uint16_t x31 = (a31 > b31 ? a31 : b31) - (a31 < b31 ? a31 : b31);
    d[3] = x24 + x25 + x26 + x27 + x28 + x29 + x30 + x31;
}

void sad_loop(uint64_t *restrict d, const uint8_t *a, const uint8_t *b)
{
    for (int i = 0; i < 4; i++) {
        unsigned s = 0;
        for (int k = 0; k < 8; k++) {
            int x = a[8 * i + k] - b[8 * i + k];
            s += x < 0 ? -x : x;
        }
        d[i] = s;
    }
}
