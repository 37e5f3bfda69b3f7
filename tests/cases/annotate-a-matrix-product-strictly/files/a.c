#include <stdio.h>
#define N 32
int a[N][N], b[N][N], c[N][N];
int main(void)
{
    int i, j, k, s;
    for (i = 0; i < N; i++)
        for (j = 0; j < N; j++) {
            a[i][j] = i + j;
            b[i][j] = i - j;
        }
    for (i = 0; i < N; i++)
        for (j = 0; j < N; j++) {
            s = 0;
            for (k = 0; k < N; k++)
                s += a[i][k] * b[k][j];
            c[i][j] = s;
        }
    printf("%d\n", c[31][31]);
    return 0;
}
