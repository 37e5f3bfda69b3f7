#include <stdio.h>

int twice(int x)
{
    return 2 * x;
}

int apply_twice(int x)
{
    return twice(twice(x));
}

int main(void)
{
    printf("%d\n", apply_twice(10));
    return 0;
}
