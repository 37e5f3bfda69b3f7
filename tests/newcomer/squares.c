#include <stdio.h>
#include <stdlib.h>

int main(void)
{
    int i, n = 10;
    int *squares = (int *)malloc(n * sizeof(int));

    for (i = 0; i < n; i++)
        squares[i] = i * i;
    printf("%d\n", squares[n - 1]);
    free(squares);
    return 0;
}
