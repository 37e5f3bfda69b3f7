#include <stdio.h>

#define DEBUG 1

int main(void)
{
    int i, product = 1;

    for (i = 1; i <= 5; i++)
        product *= i;
#ifdef DEBUG
    printf("i is %d\n", i);
#endif
    printf("%d\n", product);
    return 0;
}
