#include <stdio.h>

int main(void)
{
    int a[6] = {7, 1, 12, 9, 4, 30};
    int i, j;

    for (i = 0; i < 6; i++)
        for (j = i + 1; j < 6; j++)
            if (a[i] + a[j] == 13)
                goto found;
    printf("none\n");
    return 0;
found:
    printf("%d and %d\n", a[i], a[j]);
    return 0;
}
