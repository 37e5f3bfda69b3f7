#include <stdio.h>

int main(void)
{
    int table[2][3] = {1, 2, 3, 4, 5, 6};

    printf("%d\n", table[1][0]);
    return 0;
}
