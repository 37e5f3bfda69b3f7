#include <stdio.h>

int sum(int rows, int columns, int table[rows][columns])
{
    int i, j, s = 0;

    for (i = 0; i < rows; i++)
        for (j = 0; j < columns; j++)
            s += table[i][j];
    return s;
}

int main(void)
{
    int table[2][3] = {{1, 2, 3}, {4, 5, 6}};

    printf("%d\n", sum(2, 3, table));
    return 0;
}
