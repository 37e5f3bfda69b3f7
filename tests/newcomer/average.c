#include <stdio.h>

int main(void)
{
    int marks[4] = {3, 1, 4, 2};
    int i, sum = 0;
    float average;

    for (i = 0; i < 4; i++)
        sum += marks[i];
    average = (float)sum / 4;
    printf("average %.3f\n", average);
    return 0;
}
