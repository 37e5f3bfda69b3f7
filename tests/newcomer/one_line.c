#include <stdio.h>

int main(void)
{
    char line[80];
    int i;

    fgets(line, 80, stdin);
    for (i = 0; line[i] != '\n'; i++)
        ;
    printf("%d\n", i);
    return 0;
}
