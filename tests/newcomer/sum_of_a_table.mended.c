#include <stdio.h>

#define COLUMNS 3

int sum(int rows, int table[][COLUMNS])
{
    int i, j, s = 0;

    for (i = 0; i < rows; i++)
        for (j = 0; j < COLUMNS; j++)
            s += table[i][j];
    return s;
}

int main(void)
{
    int table[2][COLUMNS] = {{1, 2, 3}, {4, 5, 6}};

    printf("%d\n", sum(2, table));
    return 0;
}
