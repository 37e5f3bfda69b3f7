// Nine loops, each within the one before, of N turns each.
#include <stdio.h>
#define N 5
int main(void)
{
    int a, b, c, d, e, f, g, h, i;
    unsigned s = 0;
    for (a = 0; a < N; a++)
        for (b = 0; b < N; b++)
            for (c = 0; c < N; c++)
                for (d = 0; d < N; d++)
                    for (e = 0; e < N; e++)
                        for (f = 0; f < N; f++)
                            for (g = 0; g < N; g++)
                                for (h = 0; h < N; h++)
                                    for (i = 0; i < N; i++)
                                        s += (a ^ c) * (e + i) + (h & f);
    printf("%u\n", s);
    return 0;
}
