#include <stdio.h>
#include <math.h>

int main(void)
{
    int a = 3, b = 4;
    int c = sqrt(a * a + b * b);

    printf("%d\n", c);
    return 0;
}
