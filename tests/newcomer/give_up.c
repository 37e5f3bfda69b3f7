#include <stdio.h>
#include <stdlib.h>

int divide(int a, int b)
{
    if (b == 0) {
        printf("no division by 0\n");
        exit(1);
    }
    return a / b;
}

int main(void)
{
    printf("%d\n", divide(84, 2));
    return 0;
}
