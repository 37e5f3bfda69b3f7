#include <stdio.h>

#define N 3

void transpose(int m[N][N])
{
    int i, j, t;

    for (i = 0; i < N; i++)
        for (j = 0; j < i; j++) {
            t = m[i][j];
            m[i][j] = m[j][i];
            m[j][i] = t;
        }
}

int main(void)
{
    int m[N][N] = {{1, 2, 3}, {4, 5, 6}, {7, 8, 9}};
    int i = 0;

    transpose(m);
    do {
        printf("%d %d %d\n", m[i][0], m[i][1], m[i][2]);
        i++;
    } while (i < N);
    return 0;
}
