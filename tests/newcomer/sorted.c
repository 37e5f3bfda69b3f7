#include <stdio.h>

#define SIZE 7

void swap(int *a, int *b)
{
    int t = *a;
    *a = *b;
    *b = t;
}

int main(void)
{
    int numbers[SIZE] = {31, 4, 15, 92, 6, 53, 5};

    for (int i = 0; i < SIZE - 1; i++)
        for (int j = 0; j < SIZE - 1 - i; j++)
            if (numbers[j] > numbers[j + 1])
                swap(&numbers[j], &numbers[j + 1]);
    for (int i = 0; i < SIZE; i++)
        printf("%d%c", numbers[i], i == SIZE - 1 ? '\n' : ' ');
    return 0;
}
