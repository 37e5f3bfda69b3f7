#include <stdio.h>
#include <stdlib.h>

unsigned drawn = 1;

int main(void)
{
    int i, wrong = 0;

    for (i = 0; i < 100; i++) {
        int dots = (drawn = drawn * 1103515245 + 12345) / 65536 % 6 + 1;
        if (dots < 1 || dots > 6)
            wrong++;
    }
    printf("%d wrong\n", wrong);
    return 0;
}
