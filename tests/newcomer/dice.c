#include <stdio.h>
#include <stdlib.h>

int main(void)
{
    int i, wrong = 0;

    for (i = 0; i < 100; i++) {
        int dots = rand() % 6 + 1;
        if (dots < 1 || dots > 6)
            wrong++;
    }
    printf("%d wrong\n", wrong);
    return 0;
}
