#include <stdio.h>
#include <string.h>

int main(void)
{
    char word[] = "parallel";
    int length = strlen(word);

    printf("%d letters\n", length);
    return 0;
}
