#include <stdio.h>

int main(void)
{
    char greeting[] = "good morning";
    int i;

    greeting[0] = 'G';
    for (i = 0; greeting[i] != '\0'; i++)
        putchar(greeting[i]);
    putchar('\n');
    return 0;
}
