#include <stdio.h>

int twice(int x)
{
    return 2 * x;
}

int apply(int (*f)(int), int x)
{
    return f(f(x));
}

int main(void)
{
    printf("%d\n", apply(twice, 10));
    return 0;
}
