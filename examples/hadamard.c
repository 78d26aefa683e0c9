/* The Hadamard transform of eight columns of four words, in pictures of 32 words a row. Made by examples/make. */
#include <stdint.h>

void hadamard_line(int16_t *restrict d, const int16_t *x)
{
    int p0 = x[0];
    int q0 = x[32];
    int r0 = x[64];
    int s0 = x[96];
    int p1 = x[1];
    int q1 = x[33];
    int r1 = x[65];
    int s1 = x[97];
    int p2 = x[2];
    int q2 = x[34];
    int r2 = x[66];
    int s2 = x[98];
    int p3 = x[3];
    int q3 = x[35];
    int r3 = x[67];
    int s3 = x[99];
    int p4 = x[4];
    int q4 = x[36];
    int r4 = x[68];
    int s4 = x[100];
    int p5 = x[5];
    int q5 = x[37];
    int r5 = x[69];
    int s5 = x[101];
    int p6 = x[6];
    int q6 = x[38];
    int r6 = x[70];
    int s6 = x[102];
    int p7 = x[7];
    int q7 = x[39];
    int r7 = x[71];
    int s7 = x[103];
    d[0] = p0 + q0 + r0 + s0;
    d[1] = p1 + q1 + r1 + s1;
    d[2] = p2 + q2 + r2 + s2;
    d[3] = p3 + q3 + r3 + s3;
    d[4] = p4 + q4 + r4 + s4;
    d[5] = p5 + q5 + r5 + s5;
    d[6] = p6 + q6 + r6 + s6;
    d[7] = p7 + q7 + r7 + s7;
    d[32] = p0 + r0 - q0 - s0;
    d[33] = p1 + r1 - q1 - s1;
    d[34] = p2 + r2 - q2 - s2;
    d[35] = p3 + r3 - q3 - s3;
    d[36] = p4 + r4 - q4 - s4;
    d[37] = p5 + r5 - q5 - s5;
    d[38] = p6 + r6 - q6 - s6;
    d[39] = p7 + r7 - q7 - s7;
    d[64] = p0 + q0 - r0 - s0;
    d[65] = p1 + q1 - r1 - s1;
    d[66] = p2 + q2 - r2 - s2;
    d[67] = p3 + q3 - r3 - s3;
    d[68] = p4 + q4 - r4 - s4;
    d[69] = p5 + q5 - r5 - s5;
    d[70] = p6 + q6 - r6 - s6;
    d[71] = p7 + q7 - r7 - s7;
    d[96] = p0 + s0 - q0 - r0;
    d[97] = p1 + s1 - q1 - r1;
    d[98] = p2 + s2 - q2 - r2;
    d[99] = p3 + s3 - q3 - r3;
    d[100] = p4 + s4 - q4 - r4;
    d[101] = p5 + s5 - q5 - r5;
    d[102] = p6 + s6 - q6 - r6;
    d[103] = p7 + s7 - q7 - r7;
}

void hadamard_loop(int16_t *restrict d, const int16_t *x)
{
    for (int i = 0; i < 8; i++) {
        int p = x[i], q = x[32 + i], r = x[64 + i], s = x[96 + i];
        d[i] = p + q + r + s;
        d[32 + i] = p + r - q - s;
        d[64 + i] = p + q - r - s;
        d[96 + i] = p + s - q - r;
    }
}
