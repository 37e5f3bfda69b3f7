// The product of two matrices of N rows.
#include <stdio.h>
#define N 128
int a[N][N], b[N][N], c[N][N];
int main(void)
{
    int i, j, k, s;
    for (i = 0; i < N; i++)
        for (j = 0; j < N; j++) {
            a[i][j] = i + j;
            b[i][j] = i - j;
        }
    for (i = 0; i < N; i++)
        for (j = 0; j < N; j++) {
            s = 0;
            for (k = 0; k < N; k++)
                s += a[i][k] * b[k][j];
            c[i][j] = s;
        }
    printf("%d %d\n", c[N / 2][N / 3], c[N - 1][N - 1]);
    return 0;
}
