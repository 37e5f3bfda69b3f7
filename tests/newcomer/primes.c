#include <stdio.h>
#include <stdbool.h>

bool is_prime(int n)
{
    int d;

    for (d = 2; d * d <= n; d++)
        if (n % d == 0)
            return false;
    return n > 1;
}

int main(void)
{
    int n;

    for (n = 0; n < 20; n++)
        if (is_prime(n))
            printf("%d ", n);
    printf("\n");
    return 0;
}
