/* Calls the function that tools/to-c makes of the program of crates/vegen/data/kernel (README.md). */
#include <stdio.h>

void products(unsigned char *d, unsigned char *p, unsigned char *q);

int main(void)
{
    short p[8] = {1, 2, 3, 4, 5, 6, 7, 8}, q[8] = {1, 1, 1, 1, 1, 1, 1, 1};
    int d[4];
    products((unsigned char *)d, (unsigned char *)p, (unsigned char *)q);
    printf("%d %d %d %d\n", d[0], d[1], d[2], d[3]);
}
