#include <stdio.h>

typedef unsigned long big;

big factorial(int n)
{
    return n < 2 ? 1 : n * factorial(n - 1);
}

int main(void)
{
    printf("%lu\n", factorial(15));
    return 0;
}
