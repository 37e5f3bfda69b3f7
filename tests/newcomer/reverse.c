#include <stdio.h>

/* turns a text round, in place */
void reverse(char text[], int length)
{
    int i, j;
    char c;

    for (i = 0, j = length - 1; i < j; i++, j--) {
        c = text[i];
        text[i] = text[j];
        text[j] = c;
    }
}

int main(void)
{
    char word[] = "stressed";
    char *p;

    reverse(word, 8);
    for (p = word; *p; p++)
        putchar(*p);
    putchar('\n');
    return 0;
}
