#include <stdio.h>

int main(void)
{
    char text[] = "critical path";
    char *found = NULL;
    int i;

    for (i = 0; text[i] != '\0'; i++)
        if (text[i] == 'p')
            found = &text[i];
    if (found != NULL)
        printf("%c\n", *(found + 1));
    return 0;
}
