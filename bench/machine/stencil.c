// Means of three neighbours over 1,000 elements, N times.
#include <stdio.h>
#define N 800
int old[1000], new[1000];
int main(void)
{
    int t, i;
    for (i = 0; i < 1000; i++)
        old[i] = i * i % 1009;
    for (t = 0; t < N; t++) {
        for (i = 1; i < 999; i++)
            new[i] = (old[i - 1] + old[i] + old[i + 1]) / 3;
        for (i = 1; i < 999; i++)
            old[i] = new[i];
    }
    printf("%d %d\n", old[1], old[500]);
    return 0;
}
