#include <stdio.h>

int main(void)
{
    int x = 3, y = 4;

    x = x + 1;
    printf("(%d, %d)\n", x, y);
    return 0;
}
