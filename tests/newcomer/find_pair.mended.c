#include <stdio.h>

int a[6] = {7, 1, 12, 9, 4, 30};

int partner(int i)
{
    int j;

    for (j = i + 1; j < 6; j++)
        if (a[i] + a[j] == 13)
            return j;
    return -1;
}

int main(void)
{
    int i;

    for (i = 0; i < 6; i++)
        if (partner(i) != -1) {
            printf("%d and %d\n", a[i], a[partner(i)]);
            return 0;
        }
    printf("none\n");
    return 0;
}
