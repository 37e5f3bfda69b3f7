#include <stdio.h>

int root(int n)
{
    int r = 0;

    while ((r + 1) * (r + 1) <= n)
        r++;
    return r;
}

int main(void)
{
    int a = 3, b = 4;
    int c = root(a * a + b * b);

    printf("%d\n", c);
    return 0;
}
