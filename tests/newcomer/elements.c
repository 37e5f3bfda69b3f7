#include <stdio.h>

int main(void)
{
    int a[12];

    printf("%zu elements\n", sizeof a / sizeof a[0]);
    return 0;
}
