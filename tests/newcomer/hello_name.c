#include <stdio.h>

int main(void)
{
    char name[] = "Ada";

    printf("Hello, %s!\n", name);
    return 0;
}
