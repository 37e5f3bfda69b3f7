/* The product of two square matrices, row by column: each element of it is a sum of its own. */
#include <stdio.h>
#define SIZE 32

int left[SIZE][SIZE], right[SIZE][SIZE], product[SIZE][SIZE];

/* Sets both factors. */
void fill(void)
{
    int i, j;

    for (i = 0; i < SIZE; i++)
        for (j = 0; j < SIZE; j++) {
            left[i][j] = (i * 7 + j * 3) % 11 - 5;
            right[i][j] = (i * 5 + j * 2) % 13 - 6;
        }
}

/* The element of the product in a row and a column. */
int element(int row, int column)
{
    int sum = 0;
    int k;

    for (k = 0; k < SIZE; k++)
        sum += left[row][k] * right[k][column];
    return sum;
}

void multiply(void)
{
    int i, j;

    for (i = 0; i < SIZE; i++)
        for (j = 0; j < SIZE; j++)
            product[i][j] = element(i, j);
}

/* The sum of the diagonal. */
int trace(void)
{
    int sum = 0;
    int i;

    for (i = 0; i < SIZE; i++)
        sum += product[i][i];
    return sum;
}

int main(void)
{
    fill();
    multiply();
    printf("corner %d\n", product[SIZE - 1][SIZE - 1]);
    printf("trace %d\n", trace());
    return 0;
}
