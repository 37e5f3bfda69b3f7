// The sieve of Eratosthenes up to 100,000, N times.
#include <stdio.h>
#define N 9
char sieve[100000];
int main(void)
{
    int t, i, j, n = 0;
    for (t = 0; t < N; t++) {
        for (i = 0; i < 100000; i++)
            sieve[i] = 0;
        for (i = 2; i < 100000; i++) {
            if (sieve[i])
                continue;
            n++;
            for (j = i + i; j < 100000; j += i)
                sieve[j] = 1;
        }
    }
    printf("%d\n", n);
    return 0;
}
