#include <stdio.h>
#include <stdlib.h>

int divide(int a, int b)
{
    return a / b;
}

int main(void)
{
    int b = 2;

    if (b == 0) {
        printf("no division by 0\n");
        return 1;
    }
    printf("%d\n", divide(84, b));
    return 0;
}
