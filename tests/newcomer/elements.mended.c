#include <stdio.h>

int main(void)
{
    int a[12];

    printf("%lu elements\n", sizeof a / sizeof a[0]);
    return 0;
}
