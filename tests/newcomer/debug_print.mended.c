#include <stdio.h>

int main(void)
{
    int i, product = 1;

    for (i = 1; i <= 5; i++)
        product *= i;
    printf("i is %d\n", i);
    printf("%d\n", product);
    return 0;
}
