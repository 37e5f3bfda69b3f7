#include <stdio.h>

int main(int argc, char **argv)
{
    int n = argc > 1 ? argv[1][0] - '0' : 3;

    while (n > 0)
        printf("%d\n", n--);
    return 0;
}
