#include <stdio.h>

int main(void)
{
    int marks[4] = {3, 1, 4, 2};
    int i, sum = 0;
    int average;

    for (i = 0; i < 4; i++)
        sum += marks[i];
    average = 1000 * sum / 4;
    printf("average %d.%d%d%d\n", average / 1000, average / 100 % 10, average / 10 % 10, average % 10);
    return 0;
}
