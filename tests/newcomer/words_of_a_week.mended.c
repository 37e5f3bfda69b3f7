#include <stdio.h>

int main(void)
{
    const char days[3][4] = {"Mon", "Tue", "Wed"};
    int i;

    for (i = 0; i < 3; i++)
        printf("%c", days[i][0]);
    printf("\n");
    return 0;
}
