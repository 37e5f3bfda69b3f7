#include <stdio.h>

char words[2][6] = {"world", "hello"};

int main(void)
{
    int first = 0, second = 1, t;

    t = first;
    first = second;
    second = t;
    printf("%c%c\n", words[first][0], words[second][0]);
    return 0;
}
