#include <stdio.h>

void swap(const char **a, const char **b)
{
    const char *t = *a;

    *a = *b;
    *b = t;
}

int main(void)
{
    const char *first = "world", *second = "hello";

    swap(&first, &second);
    printf("%c%c\n", first[0], second[0]);
    return 0;
}
