// The N-th Fibonacci number, by a function that calls itself twice.
#include <stdio.h>
#define N 31
int fibonacci(int n)
{
    if (n < 2)
        return n;
    return fibonacci(n - 1) + fibonacci(n - 2);
}
int main(void)
{
    printf("%d\n", fibonacci(N));
    return 0;
}
