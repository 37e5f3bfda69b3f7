#include <stdio.h>

#define SQUARE(x) ((x) * (x))

int main(void)
{
    printf("%d\n", SQUARE(3 + 4));
    return 0;
}
