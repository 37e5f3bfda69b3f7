#include <stdio.h>

int main(void)
{
    char name[] = "Ada";
    int i;

    printf("Hello, ");
    for (i = 0; name[i] != '\0'; i++)
        putchar(name[i]);
    printf("!\n");
    return 0;
}
