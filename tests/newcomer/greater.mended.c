#include <stdio.h>

static int greater(int a, int b)
{
    return a > b ? a : b;
}

int main(void)
{
    printf("%d\n", greater(3, 8));
    return 0;
}
