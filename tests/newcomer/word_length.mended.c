#include <stdio.h>

int main(void)
{
    char word[] = "parallel";
    int length = 0;

    while (word[length] != '\0')
        length++;
    printf("%d letters\n", length);
    return 0;
}
