#include <stdio.h>

int main(void)
{
    char line[80];
    int i;

    for (i = 0; i < 79 && (i == 0 || line[i - 1] != '\n'); i++)
        line[i] = getchar();
    line[i] = '\0';
    for (i = 0; line[i] != '\n'; i++)
        ;
    printf("%d\n", i);
    return 0;
}
