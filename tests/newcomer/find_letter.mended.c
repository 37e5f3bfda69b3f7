#include <stdio.h>

int main(void)
{
    char text[] = "critical path";
    char *found = text;
    int i, is_found = 0;

    for (i = 0; text[i] != '\0'; i++)
        if (text[i] == 'p') {
            found = &text[i];
            is_found = 1;
        }
    if (is_found)
        printf("%c\n", *(found + 1));
    return 0;
}
