#include <stdio.h>

#define n 10

int main(void)
{
    int a[n];
    int i;

    for (i = 0; i < n; i++)
        a[i] = n - i;
    printf("%d\n", a[3]);
    return 0;
}
