// Insertion sort of N numbers.
#include <stdio.h>
#define N 2400
int a[N];
int main(void)
{
    int i, j, v;
    for (i = 0; i < N; i++)
        a[i] = i * 7919 % 10007;
    for (i = 1; i < N; i++) {
        v = a[i];
        j = i;
        while (j > 0 && a[j - 1] > v) {
            a[j] = a[j - 1];
            j--;
        }
        a[j] = v;
    }
    printf("%d %d %d\n", a[0], a[N / 2], a[N - 1]);
    return 0;
}
