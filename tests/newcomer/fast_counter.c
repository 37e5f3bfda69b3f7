#include <stdio.h>

int main(void)
{
    register int i;
    int sum = 0;

    for (i = 0; i < 100; i++)
        sum += i;
    printf("%d\n", sum);
    return 0;
}
