// The length of the longest common subsequence of two lists of N.
#include <stdio.h>
#define N 850
char s[N], t[N];
int best[N + 1][N + 1];
int main(void)
{
    int i, j;
    for (i = 0; i < N; i++) {
        s[i] = i * i % 5;
        t[i] = i * 3 % 7 % 5;
    }
    for (i = 1; i <= N; i++)
        for (j = 1; j <= N; j++)
            if (s[i - 1] == t[j - 1])
                best[i][j] = best[i - 1][j - 1] + 1;
            else
                best[i][j] = best[i - 1][j] > best[i][j - 1] ? best[i - 1][j] : best[i][j - 1];
    printf("%d\n", best[N][N]);
    return 0;
}
